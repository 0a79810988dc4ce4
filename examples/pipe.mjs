// A crash by pipe, from Node: BLOBCRASH=out/blobcrash node examples/pipe.mjs
import { spawn } from "node:child_process";
import { createInterface } from "node:readline";

const program = spawn(process.env.BLOBCRASH, { stdio: ["pipe", "pipe", "inherit"] });
const replies = createInterface({ input: program.stdout })[Symbol.asyncIterator]();
program.stdin.write("words 0 0 max\n"); // a preamble line has no reply
for (const call of ["config write 0 1 1 2 prefix", "open p 62", "write 0 0 616263", "crash", "reopen", "open p 62", "read 1 0 2"]) {
    program.stdin.write(call + "\n");
    console.log(call, "=>", (await replies.next()).value); // each reply arrives before the next line is due
}
program.stdin.end();
