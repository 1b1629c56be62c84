// The steps of a session, each with its table, and where in them we are: undo and redo.

export class History {
    constructor() {
        this.steps = [];
        this.at = -1;
    }

    get step() {
        return this.steps[this.at] ?? null;
    }

    // a new record takes the place of what was undone
    take(step) {
        this.steps.length = this.at + 1;
        this.steps.push(step);
        this.at++;
    }

    can(by) {
        return this.at + by >= 0 && this.at + by < this.steps.length;
    }

    // where a step of undo or redo leads: the cuts of one click are one step
    next(by) {
        let to = this.at + by;
        const click = (by < 0 ? this.step : this.steps[to])?.click;
        while (click && this.steps[to + Math.max(0, by)]?.click === click) to += by;
        return to;
    }

    go(to) {
        this.at = Math.max(0, Math.min(this.steps.length - 1, to));
    }

    // the step of the table that the session goes on from, if it was opened
    get opened() {
        const [first] = this.steps;
        return first?.record.kind === "open" ? first : null;
    }

    // the step that the table here begins with: a cube that was taken, or a table that was opened
    get beginning() {
        return this.steps[this.beginsAt] ?? null;
    }

    get beginsAt() {
        return this.steps.findLastIndex(({ record, reply }, i) => i <= this.at && record.kind !== "cut" && reply.number === 0);
    }

    // the steps of the table here, from its beginning
    get made() {
        return this.steps.slice(this.beginsAt, this.at + 1);
    }

    // the records up to where we are; opening is none
    records(from = 0) {
        return this.steps.slice(from, this.at + 1).map(({ record }) => record).filter(({ kind }) => kind !== "open");
    }
}
