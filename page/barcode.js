// Bar codes: Code 128 (ISO/IEC 15417) in set B, which has the letters, digits and signs of plain ASCII.

// The widths of the three bars and three gaps of each code word, in modules; the last one is the stop, which ends with a bar more.
const WORDS_OF_BARS = (
  "212222 222122 222221 121223 121322 131222 122213 122312 132212 221213 221312 231212 112232 122132 122231 113222 123122 123221 "
  + "223211 221132 221231 213212 223112 312131 311222 321122 321221 312212 322112 322211 212123 212321 232121 111323 131123 131321 "
  + "112313 132113 132311 211313 231113 231311 112133 112331 132131 113123 113321 133121 313121 211331 231131 213113 213311 213131 "
  + "311123 311321 331121 312113 312311 332111 314111 221411 431111 111224 111422 121124 121421 141122 141221 112214 112412 122114 "
  + "122411 142112 142211 241211 221114 413111 241112 134111 111242 121142 121241 114212 124112 124211 411212 421112 421211 212141 "
  + "214121 412121 111143 111341 131141 114113 114311 411113 411311 113141 114131 311141 411131 211412 211214 211232 2331112").split(" ");
const START_B = 104, STOP = 106, MODULUS = 103;

// The code words of a text: the start, a word for each letter, the check word and the stop. Null where a letter isn't of set B.
export function codeWords(text) {
  if (!/^[ -~]+$/.test(text)) return null;
  const letters = [...text].map((it) => it.charCodeAt(0) - 32);
  const check = letters.reduce((sum, it, k) => sum + (k + 1) * it, START_B) % MODULUS;
  return [START_B, ...letters, check, STOP];
}

// The quiet zone on each side, in modules.
export const QUIET = 10;

// The bars of a text as a path one unit high, and how many modules it is wide with its quiet zones.
export function bars(text) {
  const widths = codeWords(text).flatMap((it) => [...WORDS_OF_BARS[it]].map(Number));
  let x = QUIET, path = "";
  widths.forEach((it, k) => { if (k % 2 === 0) path += `M${x} 0h${it}v1h-${it}z`; x += it; });
  return { path, width: x + QUIET };
}

// The width of a module in millimetres, so that so many fit into a room: two to four dots of a printer of 203 dpi.
const MODULES = [0.5, 0.375, 0.25];
export const moduleFor = (count, room) => MODULES.find((it) => count * it <= room) || MODULES.at(-1);
