// Checks that are counted, and told when they fail.

export class Checks {
    constructor() {
        this.count = 0;
        this.fails = [];
    }

    same(name, given, wanted) {
        this.count++;
        const [a, b] = [given, wanted].map(x => JSON.stringify(x));
        if (a !== b) this.fails.push(`${name}: wanted ${b}, given ${a}`);
    }

    holds(name, given) {
        this.same(name, Boolean(given), true);
    }

    // the number to end with
    told(what) {
        for (const fail of this.fails) console.log(fail);
        console.log(`${what}: ${this.fails.length} of ${this.count} checks failed`);
        return this.fails.length > 0 || this.count === 0 ? 1 : 0;
    }
}
