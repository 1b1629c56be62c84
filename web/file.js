// The one file of a table, saved and opened by the engine in room that is lent for its bytes, and a piece's print file, which has fewer.
// docs/FILE.md says how the first lie.
import { ROOM, TABLE_BYTES, Table } from "./table.js";

// no table of this room has a longer one: a header, and then every vertex, hyperplane and element
export const FILE_BYTES = 10 + ROOM.vertices * (2 + 8 * ROOM.dimensions) + ROOM.hyperplanes * (10 + 8 * ROOM.dimensions) +
    ROOM.elements * (8 + 2 * ROOM.boundary);

// the mark of a header stands first, and no session begins with it
export const isFileOfTable = bytes => bytes[0] === 0x48 && bytes[1] === 0x44;

export class FileRoom {
    constructor(engine, length = FILE_BYTES) {
        this.engine = engine;
        this.bytes = new Uint8Array(engine.memory, engine.lend(length), length);
    }

    // { number } when refused, else { number: 0, file }
    save({ lent }) {
        return this.written(this.engine.save(lent, this.bytes.byteOffset, this.bytes.length));
    }

    stl({ lent }, root) {
        return this.written(this.engine.stl(lent, root, this.bytes.byteOffset, this.bytes.length));
    }

    written({ number, size }) {
        return number === 0 ? { number, file: this.bytes.slice(0, size) } : { number };
    }

    // the number: 0, and the table is the file's; or 13 or 3, and it is as it was
    async open(table, file) {
        if (file.length > this.bytes.length) return this.openLong(file);
        this.bytes.set(file);
        return this.engine.open(table.lent, this.bytes.byteOffset, file.length);
    }

    // a file with no place here is no table's, but with which number it is refused is the engine's to say
    async openLong(file) {
        const engine = await this.engine.another(TABLE_BYTES + file.length);
        return new FileRoom(engine, file.length).open(new Table(engine), file);
    }
}
