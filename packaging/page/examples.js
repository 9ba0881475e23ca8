// What a newcomer may send first.
const DIMER = "2\ndimer\nAr 0 0 0\nAr 1.5 0 0\n";

/** A cubic crystal of 6^3 atoms 1.1 sigma apart, one of them 0.2 sigma off its place. */
function crystal() {
  const rows = [];
  for (let atom = 0; atom < 216; atom++) {
    const [x, y, z] = [atom % 6, Math.floor(atom / 6) % 6, Math.floor(atom / 36)];
    rows.push(`Ar ${(1.1 * x + (atom === 43 ? 0.2 : 0)).toFixed(1)} ${(1.1 * y).toFixed(1)} ${(1.1 * z).toFixed(1)}\n`);
  }
  return `216\ncrystal\n${rows.join("")}`;
}

// By the keys of their texts.
export const examples = {
  exampleTwo: `LOAD a 256 1 131072 rest ${DIMER.length}\n${DIMER}ADVANCE a 2\nSHOW a 0\nREVERSE a\nADVANCE a 1\nSHOW a 0\nSHOW a 1\n`,
  exampleCrystal: `LOAD c 6.6 1 4295 rest ${crystal().length}\n${crystal()}MEASURE c\nADVANCE c 1000\nMEASURE c\nREVERSE c\nADVANCE c 999\nSHOW c 43\n`,
  exampleShown: "SHOW view-1 0\nADVANCE view-1 100\nSHOW view-1 0\nREVERSE view-1\nADVANCE view-1 99\nSHOW view-1 0\n",
  exampleList: "LIST\n",
};
