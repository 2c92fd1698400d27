/* A worker that runs the module: it is asked one thing at a time, the newest next, and is ended
   where an answer takes long and something else is asked, or where its answer isn't wanted. An
   answer may come in parts. */

const PATIENCE = 700;

class Asker {
  constructor(module, source, { made, answered, busy }) {
    Object.assign(this, { module, made, answered, busy, count: 0, asked: null, waits: false });
    this.address = URL.createObjectURL(new Blob([source], { type: "text/javascript" }));
    this.begin();
  }

  begin() {
    this.worker = new Worker(this.address);
    this.worker.onmessage = ({ data }) => this.take(data);
    this.worker.onerror = (event) => this.take({ id: this.count, broken: event.message });
    this.worker.postMessage({ module: this.module });
  }

  /* Asks for an answer to the request that is made when it is sent. */
  ask() {
    this.waits = true;
    clearTimeout(this.timer);
    if (!this.asked) this.send();
    else this.timer = setTimeout(() => this.breakOff(), PATIENCE - performance.now() + this.since);
  }

  send() {
    clearTimeout(this.timer);
    [this.asked, this.waits] = [this.made(), false];
    this.count += 1;
    this.since = performance.now();
    this.worker.postMessage({ ...this.asked, id: this.count });
    this.busy(true);
  }

  /* Ends the answer under way. */
  breakOff() {
    clearTimeout(this.timer);
    this.worker.terminate();
    this.begin();
    this.asked = null;
    this.busy(false);
    if (this.waits) this.send();
  }

  take(answer) {
    if (answer.id !== this.count || !this.asked) return;
    const request = this.asked;
    if (!answer.part) {
      this.asked = null;
      this.busy(false);
    }
    this.answered(answer, request);
    if (this.waits && !this.asked) this.send();
  }
}
