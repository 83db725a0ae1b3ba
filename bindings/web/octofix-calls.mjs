// Calls of functions that are in a worker, or answered there.

import * as octofix from "./octofix.mjs";

// Has calls of one side answered on the other: each by its number, in any order.
export class Caller {
  constructor(port) {
    Object.assign(this, {port, waiting: new Map(), count: 0});
    listen(port, said => this.answered(said));
  }

  call(name, ...passed) {
    return new Promise((done, fail) => {
      if (this.ended) throw this.ended;
      const id = ++this.count;
      this.waiting.set(id, {done, fail});
      this.port.postMessage({id, name, passed});
    });
  }

  answered({id, answer, fault}) {
    const {done, fail} = this.waiting.get(id) ?? {};
    this.waiting.delete(id);
    if (fault) fail?.(errorOf(fault));
    else done?.(answer);
  }

  // No more calls are answered.
  end(why) {
    this.ended ??= why;
    for (const {fail} of this.waiting.values()) fail(why);
    this.waiting.clear();
  }
}

// Answers calls by an object's functions. What an answer lists goes over without a copy.
export function answerCalls(port, calls) {
  listen(port, async ({id, name, passed}) => {
    try {
      const answer = await calls[name](...passed);
      port.postMessage({id, answer}, buffersOf(answer));
    } catch (fault) {
      port.postMessage({id, fault: partsOf(fault)});
    }
  });
}

function listen(port, take) {
  if (port.on) port.on("message", take);
  else port.addEventListener("message", ({data}) => take(data));
}

function buffersOf(answer) {
  if (ArrayBuffer.isView(answer)) return [answer.buffer];
  if (!answer || typeof answer !== "object") return [];
  return [...new Set(Object.values(answer).flatMap(buffersOf))];
}

// An error's parts, and the error again. (What goes over loses the class of an error.)
function partsOf(fault) {
  const {name, message, code, fields, what, index} = fault;
  const kind = ["Refused", "Closed", "OutOfMemory", "BadPoints", "Stopped"]
    .find(it => fault instanceof octofix[it]);
  return {kind, name, message, code, fields, what, index};
}

function errorOf({kind, name, message, code, fields, what, index}) {
  switch (kind) {
    case "Refused": return new octofix.Refused(code, name, fields);
    case "Closed": return new octofix.Closed(message);
    case "OutOfMemory": return new octofix.OutOfMemory(index);
    case "BadPoints": return new octofix.BadPoints(what, index);
    case "Stopped": return new octofix.Stopped();
    default: return Object.assign(new Error(message), {name});
  }
}
