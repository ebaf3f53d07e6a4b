import desk = require("riichi_desk");

const told = desk.answer("waits 1m");
const game = new desk.Game({ ...desk.table("club"), bust: true });
const sets: BigUint64Array = desk.waits(new Uint8Array(34));
const scores: desk.Scores = desk.wins(desk.winRow({ concealed: new Uint8Array(34), winning: 3, by: 1, riichi: 2, dora: [4] }), 2);
console.log(told?.answer, game.state.round, sets[0] === desk.NO_WAITS, scores.told[0] === desk.WON, desk.texts(["waits 1m"]).length);
// @ts-expect-error: one text is not many lines
desk.answers("waits 1m");
