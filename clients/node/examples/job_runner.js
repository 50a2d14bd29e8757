"use strict";

// Makes the jobs of a worker up to number COUNT, each once, and prints their receipts. It may be killed at any moment and
// started again; a receipt may be printed twice then.
//
// node examples/job_runner.js 7000 0 bank 100

const { Done, Overtaken, Worker } = require("../index.js");

/** What job `number` adds to cell 0. */
function amount(worker, number) {
  return (1n << 62n) + 1000n * number + BigInt(worker);
}

function print(receipt) {
  console.log(`${receipt.worker} ${receipt.number} ${receipt.place} ${receipt.reply}`);
}

/** Makes the job with the program's own work inside. If the connection broke meanwhile, its number tells whether it counted. */
async function inside(client, lock, script, number) {
  for (;;) {
    try {
      return await client.inside(lock, script, () => {}, { number }); // the work stands in the block, and may be done again
    } catch (error) {
      if (error instanceof Done) return error.receipt;
      if (!(error instanceof Overtaken) || error.found !== null) throw error;
    }
  }
}

async function main([port, worker, lock, count]) {
  const client = new Worker({ port: Number(port) }, Number(worker), { label: "job_runner" });
  const left = await client.finish(); // what an earlier run has left, or did last
  if (left !== null) print(left);
  for (let number = await client.nextNumber(); number <= BigInt(count); number += 1n) {
    const script = [["add", 0, amount(worker, number)], ["add", 1, 1]];
    if (number % 2n === 0n) print(await inside(client, lock, script, number));
    else print(await client.submit(lock, script));
  }
  await client.close();
}

main(process.argv.slice(2));
