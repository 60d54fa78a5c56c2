// what calls.clj does
const mix = (a, b) => (a * 31 + b) % 1000003;
const turn = (acc, i) => mix(acc, Math.trunc(i / 3));
let i = 0, acc = 0;
while (i < @N@) {
  acc = turn(acc, i);
  i += 1;
}
console.log(acc);
