// What passes between a side and its host on ARM: the bytes of arm_answers.c's input and output.

const number = (n) => {
  const bytes = Buffer.alloc(4);
  bytes.writeUInt32LE(n);
  return bytes;
};

export function bytesOf(cases) {
  return Buffer.concat(cases.flatMap((each) => [number(each.input.length), number(each.areaLength), each.input]));
}

/** An answer for each case; there must be no byte more and none less. */
export function answersIn(output, cases) {
  let at = 0;
  const take = (length) => {
    if (at + length > output.length) throw new Error('the program wrote less than its answers');
    return output.subarray(at, (at += length));
  };
  const answers = cases.map(() => {
    const outcome = take(8).readBigUInt64LE();
    const [check, kept, answerLength, textLength] = [0, 0, 0, 0].map(() => take(4).readUInt32LE());
    return { outcome, check, kept: kept === 1, answer: take(answerLength), text: take(textLength) };
  });
  if (at !== output.length) throw new Error('the program wrote more than its answers');
  return answers;
}
