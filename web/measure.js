// What a frame of a drag costs: the time within the engine's calls, and all of it, in milliseconds, the median of many frames.

const median = times => times.sort((a, b) => a - b)[times.length >> 1];

export function measureDrag(desk, frames = 60) {
    const { calls } = desk.engine;
    let inside = 0;
    let count = 0;
    desk.engine.calls = Object.fromEntries(Object.entries(calls).map(([name, call]) => [name, (...words) => {
        const start = performance.now();
        const reply = call(...words);
        inside += performance.now() - start;
        count++;
        return reply;
    }]));
    const kept = { ...desk.aim };
    const engine = [], whole = [];
    for (let i = 0; i < frames; i++) {
        inside = count = 0;
        Object.assign(desk.aim, { distance: desk.radius * (i / frames - 0.5), aiming: true });
        const start = performance.now();
        desk.tell("aimed");
        whole.push(performance.now() - start);
        engine.push(inside);
    }
    desk.engine.calls = calls;
    desk.aim = kept;
    desk.tell("aimed");
    return { engine: median(engine), engineMost: engine.at(-1), whole: median(whole), calls: count };
}
