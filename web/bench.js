// The pieces that lie on the bench. The table knows no pieces, only entries; a piece here is an element of full rank that an
// answer gave. Which pieces lie apart is told by answers alone: one is, or came from, the inside of a cut, and the other its outside.

const opposite = { inside: "outside", outside: "inside" };

export class Bench {
    constructor(pieces = [], sides = new Map()) {
        this.pieces = pieces;
        this.sides = sides; // element to the sides that it is known to lie on, as "cut side"
    }

    apart(a, b) {
        const other = this.sides.get(b) ?? new Set();
        for (const side of this.sides.get(a) ?? []) {
            const [cut, name] = side.split(" ");
            if (other.has(`${cut} ${opposite[name]}`)) return true;
        }
        return false;
    }

    // what lies there after a record: what is not known to be apart from the root goes, and the answered sides come
    after(record, reply, table) {
        if (reply.number !== 0) return this;
        if (record.kind === "cube") return new Bench([table.sizes.elements - 1]);
        if (reply.flush || !table.isFull(record.root)) return this;
        const cut = [record.root, ...record.normal, record.distance].join();
        const sides = new Map(this.sides);
        const answered = ["inside", "outside"].filter(name => reply[name] !== null);
        for (const name of answered) {
            const known = [...(sides.get(reply[name]) ?? []), ...(this.sides.get(record.root) ?? []), `${cut} ${name}`];
            sides.set(reply[name], new Set(known));
        }
        const stay = this.pieces.filter(e => e !== record.root && this.apart(e, record.root));
        return new Bench([...new Set([...stay, ...answered.map(name => reply[name])])].sort((a, b) => a - b), sides);
    }
}
