import { answer, answerLines, answers, discards, explain, Game, game, NO_HAND, pon, shanten, table, text } from "riichi_desk";
import { type Answer, type Outcome } from "riichi_desk";

function told(it: Answer): string {
  switch (it.answer) {
    case "won": return `${it.gain} ${it.limit ?? ""} ${"discarder" in it.payment ? it.payment.discarder : ""}`;
    case "waits": return it.kinds.join(" ");
    case "shape": return "discards" in it ? it.discards[0].discard : `${it.shanten} ${it.live}`;
    case "refused": return `${it.code} ${it.key ?? ""} ${it.at ?? 0} ${it.words}`;
    case "no yaku": case "no win": return it.answer;
  }
}

const one = answer("waits 123456789m1134p");
console.log(one && told(one), text("shape 123456789m1134p"), explain("waits 1m").join("\n"), answers(["waits 1m"]).length, answerLines("waits 1m\n").length);

const outcomes: Outcome[] = [
  { kind: "ron", discarder: 2, wins: [{ winner: 1, value: { han: 1, fu: 30 } }], riichi: [1] },
  { kind: "tsumo", winner: 0, value: { yakuman: 1, liable: 3 } },
  { kind: "end" },
];
const played = new Game({ ...table("league"), bust: true });
for (const outcome of outcomes) played.add(outcome);
const needed = played.need(0, 2).off[1]?.strictly?.discarder ?? 0;
console.log(played.state.round, played.changes[0], played.moves[0]?.why, played.final()[3].total + needed, played.undo()?.kind, played.isOver);
console.log(game("game\ndraw\n").length, game(new Uint8Array(), 2).length);

const counts = new Uint8Array(68);
const { kinds, live } = discards(counts, { melds: [pon(27), 0, 0, 0, 0, 0, 0, 0], seen: new Int32Array(68) });
console.log(shanten(counts)[0] === NO_HAND, kinds[0] & 1n, live[33]);
// @ts-expect-error: one text is not many lines
answers("waits 1m");
