// What stands and what is aimed at: the one state of the page. Panels read it, change it through these calls, and are told.
import { TABLE_BYTES, Table } from "./table.js";
import { fits, load } from "./engine.js";
import { FILE_BYTES, FileRoom } from "./file.js";
import { ask, askAll, bytesOf, printed, turns } from "./session.js";
import { History } from "./history.js";
import { Bench } from "./bench.js";
import { everyPiece } from "./every.js";
import { openingOf } from "./opened.js";
import { previewOf } from "./preview.js";
import { NOTHING, stepOf } from "./step.js";
import { aimAfter, aimOf } from "./target.js";

const VIEW = { yaw: 30, pitch: 35, roll: 25, apart: 0 };

export const loadDesk = async (bytes, parts) => new Desk(await load(bytes, 3 * TABLE_BYTES + FILE_BYTES), parts);

class Desk {
    constructor(engine, parts) {
        this.engine = engine;
        this.parts = parts; // of the lesson
        this.live = new Table(engine); // the table that stands
        this.trial = new Table(engine); // the copy that is cut before a cut is made
        this.aside = new Table(engine); // a copy for what is asked beside an answer
        this.room = new FileRoom(engine); // for a file that is saved, opened or printed
        this.blank = this.live.bytes.slice();
        this.history = new History();
        this.earlier = null; // the session before this one and its lesson, if there was one
        this.lesson = null; // which part of it is gone through
        this.aim = { normal: [1, 0], distance: 0, kept: "both", root: 0, aiming: true };
        this.look = { ...VIEW, numbers: "both" };
        this.pointed = null;
        this.preview = null;
        this.touch = null; // the sides of the plane that the chosen element has corners on
        this.click = null; // the last that was many cuts
        this.panels = [];
    }

    get step() {
        return this.history.step;
    }

    get stands() {
        return this.live.dimension > 0;
    }

    get bench() {
        return this.step?.bench ?? new Bench();
    }

    // the click that ends with the record that we are at, if one does
    get clicked() {
        return [this.step?.click, this.click].find(click => click && click.end === this.step) ?? null;
    }

    get radius() {
        return this.history.beginning?.record.radius ?? 1;
    }

    // ---- telling the panels: `changed` after a record or a step, `aimed` when the plane moved, `looked` when the view did

    tell(what) {
        if (what !== "looked" && what !== "pointed") Object.assign(this, { preview: this.previewNow(), touch: this.touchNow() });
        for (const panel of this.panels) panel[what]?.(this);
    }

    // at most once a frame, for a drag
    soon(what) {
        this.waiting = this.waiting === "aimed" ? "aimed" : what;
        this.frame ??= requestAnimationFrame(() => {
            this.frame = null;
            const waiting = this.waiting;
            this.waiting = null;
            this.tell(waiting);
        });
    }

    previewNow() {
        return this.stands ? previewOf(this.live, this.trial, this.asked()) : null;
    }

    // asked of the table that stands, for nothing is cut
    touchNow() {
        return this.stands ? this.live.touch(this.asked()) : null;
    }

    // ---- records

    take(record, reply, line, before, click) {
        this.history.take(stepOf(this, { record, reply, line, before, click }));
    }

    make(record) {
        const before = this.live.sizes;
        const reply = ask(this.live, record);
        this.take(record, reply, printed(record, reply, this.live.sizes), before);
        this.aimNext();
    }

    addCube(dimension, radius) {
        this.make({ kind: "cube", dimension, radius });
        this.tell("changed");
    }

    newSession(dimension, radius) {
        this.run(bytesOf([{ kind: "cube", dimension, radius }]));
        this.tell("changed");
    }

    cut() {
        if (!this.stands || !fits(this.aim.root, 16)) return;
        this.make(this.asked());
        this.tell("changed");
    }

    // a list of cuts in one call. Its answers are the records' replies; the table after each of them is told by the same cuts, one by one
    makeAll(records, click) {
        const before = this.live.bytes.slice();
        const given = askAll(this.live, records);
        const after = this.live.bytes.slice();
        const replies = given.at === null ? given.answers : [...given.answers, { number: given.number }];
        this.live.restore(before);
        for (const [i, reply] of replies.entries()) {
            const { sizes } = this.live;
            ask(this.live, records[i]);
            this.take(records[i], reply, printed(records[i], reply, this.live.sizes), sizes, click);
        }
        this.live.restore(after);
        return given;
    }

    // planes over every piece on the bench: { name, planes, kept }
    cutEvery(asked) {
        if (!this.stands || this.bench.pieces.length === 0) return;
        this.click = everyPiece(this, asked);
        this.click.end = this.step;
        this.aimNext();
        this.tell("changed");
    }

    cutEveryPiece() {
        const { kept, normal, distance } = this.aim;
        this.cutEvery({ name: "This plane", planes: [{ normal, distance }], kept });
    }

    // a session of its own; the one before it is kept, to go back to
    begin(lesson) {
        const { history, lesson: oldLesson, earlier } = this;
        Object.assign(this, { history: new History(), lesson, earlier: history.step && { history, lesson: oldLesson } });
        return { history, lesson: oldLesson, earlier };
    }

    // a session's bytes in place of the session that is there, from no table or from the step of one that was opened; gives words for
    // what was bad, or none
    run(bytes, lesson = null, opened = null) {
        const old = this.begin(lesson);
        this.live.restore(opened?.bytes ?? this.blank);
        if (opened) this.history.take(opened);
        let says = "";
        let before = opened?.after ?? NOTHING;
        for (const { record, reply, line, bad } of turns(this.live, bytes)) {
            if (bad !== undefined) says = `${line}: the bytes from ${bad} on are no record.`;
            else this.take(record, reply, line, before);
            before = this.live.sizes;
        }
        if (this.history.records().length === 0) {
            Object.assign(this, old);
            this.live.restore(this.step?.bytes ?? this.blank);
            return `${says || "There is no record."} The session is as it was.`;
        }
        this.aimNext();
        return says;
    }

    // ---- the table's file

    // { number } when refused, else { number: 0, file }
    save() {
        return this.room.save(this.live);
    }

    // the same of a piece, for a printer
    printFile(root) {
        return this.room.stl(this.live, root);
    }

    // the table of a file in place of the one that stands, as the beginning of a session of its own; gives the number of a refusal, or 0
    async open(name, file) {
        const number = await this.room.open(this.live, file);
        if (number !== 0) return number;
        this.begin(null);
        const record = openingOf(name, file, this.live);
        this.take(record, { number }, printed(record, { number }, this.live.sizes), NOTHING);
        this.aimNext();
        this.tell("changed");
        return 0;
    }

    backToEarlier() {
        if (!this.earlier) return;
        const { history, lesson } = this.earlier;
        this.earlier = { history: this.history, lesson: this.lesson };
        Object.assign(this, { history, lesson });
        this.go(history.at);
    }

    // ---- undo, redo

    go(to) {
        this.history.go(to);
        this.live.restore(this.step?.bytes ?? this.blank);
        this.aimNext();
        this.tell("changed");
    }

    by(steps) {
        if (!this.history.can(steps)) return;
        const { record, click } = steps === -1 ? this.step : {};
        this.history.go(this.history.next(steps));
        this.live.restore(this.step.bytes);
        this.aimNext();
        if (record?.kind === "cut" && record.normal.length === this.live.dimension) Object.assign(this.aim, aimOf(click?.aim ?? record, true));
        this.tell("changed");
    }

    // ---- the plane, the sides kept and the root

    asked() {
        const { kept, root, normal, distance } = this.aim;
        return { kind: "cut", kept, root, normal, distance };
    }

    aimNext() {
        if (this.stands) Object.assign(this.aim, aimAfter(this.step, this.live));
    }

    aimAt(change) {
        Object.assign(this.aim, change, { aiming: true });
        this.soon("aimed");
    }

    lookFrom(change) {
        Object.assign(this.look, change);
        this.soon("looked");
    }

    resetView() {
        this.lookFrom(VIEW);
    }

    pointAt(what) {
        if (what?.list === this.pointed?.list && what?.n === this.pointed?.n) return;
        this.pointed = what;
        this.tell("pointed");
    }
}
