// The library for a Cortex-M3, in a program under qemu-arm (arm_host.c), which reads all cases and writes all answers.
import { spawnSync } from 'node:child_process';
import { answersIn, bytesOf } from './arm_cases.mjs';

/**
 * The processor to name. A qemu-arm that cannot start a Cortex-M3 (Debian 12's stops at an assertion of its own) is given a Cortex-A7,
 * which knows all of the Cortex-M3's instructions; the program is one for the Cortex-M3 either way.
 */
function processorFor(program) {
  for (const name of ['cortex-m3', 'cortex-a7']) {
    const { error, status } = spawnSync('qemu-arm', ['-cpu', name, program], { input: '' });
    if (error) throw error;
    if (status === 0) return name;
    console.log(`Cortex-M3: qemu-arm cannot start the program with -cpu ${name}`);
  }
  throw new Error('qemu-arm does not start the program');
}

export async function armSide(program, cases) {
  const processor = processorFor(program);
  console.log(`Cortex-M3: run by qemu-arm -cpu ${processor}`);
  const ran = spawnSync('qemu-arm', ['-cpu', processor, program], { input: bytesOf(cases), maxBuffer: 1 << 28 });
  if (ran.error) throw ran.error;
  if (ran.status !== 0) throw new Error(`qemu-arm ended with ${ran.status ?? ran.signal}: ${ran.stderr}`);
  return answersIn(ran.stdout, cases);
}
