// what loop.clj does
let i = 0, acc = 0;
while (i < @N@) {
  acc = (acc * 31 + Math.trunc(i / 3) + 7) % 1000003;
  i += 1;
}
console.log(acc);
