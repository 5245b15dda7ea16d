"use strict";
// The calls of the engine, one after the other. A call whose signal is aborted is taken out, or stopped if it runs.

class CallQueue {
    constructor(engine) {
        Object.assign(this, { engine, waiting: [], running: null });
    }

    // Makes a call when its turn comes. `signal` may be null.
    run(signal, name, ...words) {
        return new Promise((resolve, reject) => {
            const call = { name, words, resolve, reject };
            if (signal?.aborted) return reject(new gamefile.Stopped("stopped"));
            signal?.addEventListener("abort", () => this.drop(call), { once: true });
            this.waiting.push(call);
            this.next();
        });
    }

    drop(call) {
        if (this.running === call) return this.engine.stop();
        this.waiting = this.waiting.filter(it => it !== call);
        call.reject(new gamefile.Stopped("stopped"));
    }

    async next() {
        if (this.running || this.waiting.length === 0) return;
        const call = this.running = this.waiting.shift();
        try {
            call.resolve(await this.engine[call.name](...call.words));
        } catch (error) {
            call.reject(error);
        }
        this.running = null;
        this.next();
    }
}
