// Requests and notices to a server on the standard input and output of a process.
"use strict";
const { spawn } = require("child_process");

class Connection {
  // `notices` has a function for each notice of the server, by its method.
  constructor(command, words, notices) {
    this.notices = notices;
    this.waiting = new Map();
    this.number = 0;
    this.rest = Buffer.alloc(0);
    this.failed = () => {};
    this.server = spawn(command, words, { stdio: ["pipe", "pipe", "ignore"] });
    this.server.stdout.on("data", (piece) => this.read(piece));
    this.server.stdin.on("error", () => {});
    this.server.on("error", (error) => this.stop(error.message));
    this.over = new Promise((done) => this.server.on("close", (code) => {
      this.stop(this.ended ? "" : "the server has ended");
      done(code);
    }));
  }

  // Each request that is left is refused.
  stop(why) {
    for (const { refuse } of this.waiting.values()) {
      refuse(new Error(why));
    }
    this.waiting.clear();
    if (why) {
      this.failed(why);
    }
  }

  send(message) {
    const content = Buffer.from(JSON.stringify({ jsonrpc: "2.0", ...message }));
    this.server.stdin.write(`Content-Length: ${content.length}\r\n\r\n`);
    this.server.stdin.write(content);
  }

  tell(method, params) {
    this.send({ method, params });
  }

  ask(method, params) {
    this.number += 1;
    const id = this.number;
    return new Promise((done, refuse) => {
      this.waiting.set(id, { done, refuse });
      this.send({ id, method, params });
    });
  }

  read(piece) {
    this.rest = Buffer.concat([this.rest, piece]);
    for (;;) {
      const end = this.rest.indexOf("\r\n\r\n");
      const head = end < 0 ? null : /Content-Length: (\d+)/i.exec(this.rest.toString("latin1", 0, end));
      const length = head ? Number(head[1]) : 0;
      if (!head || this.rest.length < end + 4 + length) {
        return;
      }
      const content = this.rest.toString("utf8", end + 4, end + 4 + length);
      this.rest = this.rest.subarray(end + 4 + length);
      this.take(JSON.parse(content));
    }
  }

  take(message) {
    const waiting = this.waiting.get(message.id);
    if (waiting) {
      this.waiting.delete(message.id);
      return message.error ? waiting.refuse(new Error(message.error.message)) : waiting.done(message.result);
    }
    const notice = this.notices[message.method];
    if (notice) {
      notice(message.params);
    }
  }

  // Ends the server, and gives its status.
  async end() {
    this.ended = true;
    await this.ask("shutdown");
    this.tell("exit");
    return this.over;
  }
}

module.exports = { Connection };
