// The library for a Cortex-M3 on the board mps2-an385, a whole machine under qemu-system-arm (board_host.c): it reads all cases from a
// file and writes all answers to one, and the most stack that each function took, which include/layout.h must cover.
import { spawnSync } from 'node:child_process';
import fs from 'node:fs';
import os from 'node:os';
import path from 'node:path';
import { answersIn, bytesOf } from './arm_cases.mjs';

const MACHINE = ['-M', 'mps2-an385', '-cpu', 'cortex-m3', '-nographic', '-semihosting'];
const PATIENCE = 300000;
// board_host.c and arm_lines.h
const ENDED = {
  2: 'the input ends within a case', 3: 'an answer was not written', 4: 'a case is too long', 5: 'the bytes of a case are missing',
  6: 'a file was not opened', 7: 'a fault: an instruction, a place in memory or a stack that the Cortex-M3 has not',
  8: 'layout_tokens wrote another image than it must, or where it must not',
};
const FUNCTIONS = ['layout_run', 'layout_listing', 'layout_check', 'layout_tokens'];

function run(program, folder) {
  const options = { cwd: folder, stdio: ['ignore', 'pipe', 'pipe'], timeout: PATIENCE, killSignal: 'SIGKILL' };
  const ran = spawnSync('qemu-system-arm', [...MACHINE, '-kernel', path.resolve(program)], options);
  if (ran.error?.code === 'ETIMEDOUT') throw new Error(`the board did not end within ${PATIENCE / 1000} seconds`);
  if (ran.error) throw ran.error;
  if (ran.status !== 0) throw new Error(`the board ended with ${ran.status ?? ran.signal}: ${ENDED[ran.status] ?? ''} ${ran.stderr}`);
}

/** Says what the calls took, and throws where the header names less. */
function stackLine(bytes) {
  const header = fs.readFileSync(new URL('../../include/layout.h', import.meta.url), 'latin1');
  const taken = FUNCTIONS.map((name, i) => ({ name, most: bytes.readUInt32LE(4 * i) }));
  console.log(`stack: ${taken.map(({ name, most }) => `${name} ${most}`).join(', ')} bytes`);
  for (const { name, most } of taken) {
    const told = Number(new RegExp(`^#define ${name.toUpperCase()}_STACK (\\d+)$`, 'm').exec(header)?.[1]);
    if (!(most > 0 && most <= told)) throw new Error(`${name} took ${most} bytes of stack, include/layout.h says ${told}`);
  }
}

export async function boardSide(program, cases) {
  const folder = fs.mkdtempSync(path.join(os.tmpdir(), 'layout-board-'));
  try {
    fs.writeFileSync(path.join(folder, 'cases'), bytesOf(cases));
    console.log(`Cortex-M3 board: run by qemu-system-arm ${MACHINE.join(' ')}`);
    run(program, folder);
    stackLine(fs.readFileSync(path.join(folder, 'stack')));
    return answersIn(fs.readFileSync(path.join(folder, 'answers')), cases);
  } finally {
    fs.rmSync(folder, { recursive: true });
  }
}
