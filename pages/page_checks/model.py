"""The part of the page's script that needs no document, in node."""

import json
import re
import shutil
import subprocess

from .common import PAGE, check

# Bytes are of LocoNet Personal Use Edition 1.0, with check bytes worked out by hand.

MODEL_CHECKS = r"""
const rows = [];
const row = (name, found, wanted) => rows.push({ name, found: JSON.stringify(found), wanted: JSON.stringify(wanted) });
const sent = (name, { bytes }, wanted) => row(`sends ${name}`, hexOf(bytes), wanted);
sent('power on', ask.powerOn(), '83 7C');
sent('power off', ask.powerOff(), '82 7D');
sent('stop of all', ask.stopAll(), '85 7A');
sent('address 3', ask.address(3), 'BF 00 03 43');
sent('address 1234', ask.address(1234), 'BF 09 52 1B');
sent('a null move', ask.use(1), 'BA 01 01 45');
sent('a read of slot 5', ask.slot(5), 'BB 05 00 41');
sent('speed 63 of 126', ask.speed(1, 0x40), 'A0 01 40 1E');
sent('an emergency stop', ask.speed(1, 1), 'A0 01 01 5F');
sent('F0, forward', ask.directionAndFive(1, 0x10), 'A1 01 10 4F');
sent('F5', ask.fiveToEight(1, 1), 'A2 01 01 5D');
sent('a slot made common', ask.state(1, 0x13), 'B5 01 13 58');
sent('turnout 5 thrown, on', turnoutRequest(5, false, true), 'B0 04 10 5B');
sent('turnout 5 thrown, off', turnoutRequest(5, false, false), 'B0 04 00 4B');
sent('turnout 2048 closed, on', turnoutRequest(2048, true, true), 'B0 7F 3F 0F');
sent('F9 of address 3', groupThree(3, 1), 'ED 0B 7F 23 22 03 21 00 00 00 45');
sent('F9 of address 127', groupThree(127, 1), 'ED 0B 7F 23 22 7F 21 00 00 00 39');
sent('F9 of address 128', groupThree(128, 1), 'ED 0B 7F 33 27 40 00 21 00 00 13');
sent('F9 of address 1025', groupThree(1025, 1), 'ED 0B 7F 33 25 44 01 21 00 00 14');
sent('F10 of address 3', groupThree(3, 2), 'ED 0B 7F 23 22 03 22 00 00 00 46');
sent('F12 of address 1234', groupThree(1234, 8), 'ED 0B 7F 33 27 44 52 28 00 00 4C');

sent('a read of CV1', ask.readVariable(1), 'EF 0E 7C 2B 00 00 00 00 00 00 00 00 00 49');
sent('6 to CV29', ask.writeVariable(29, 6), 'EF 0E 7C 6B 00 00 00 00 00 1C 06 00 00 13');
// An address of 1023 is all ten ones, and 200 is 128 and 72.
sent('200 to CV1024', ask.writeVariable(1024, 200), 'EF 0E 7C 6B 00 00 00 00 33 7F 48 00 00 0D');
const programmed = new ProgrammingTrack();
const result = (text, before = [0xB4]) => {
  const found = programmed.hear(bytesOf(text), before);
  return found && resultWords(found);
};
row('the results of tasks', [result('E7 0E 7C 2B 00 00 00 00 00 00 03 00 00 42'), result('E7 0E 7C 6B 00 00 00 00 00 1C 06 00 00 1B'),
  result('E7 0E 7C 2B 04 00 00 00 00 00 00 00 00 45'), result('E7 0E 7C 6B 02 00 00 00 00 1C 06 00 00 19')],
  ['CV1 is 3', 'CV29: 6 written', 'CV1: no acknowledgement', 'CV29: no acknowledgement']);
row('what is known of the decoder', programmed.named(),
  [['Address', '3'], ['CV29', '6: direction normal, 28 or 128 steps, short address, analog conversion']]);
row('other slot data are no result', [result('E7 0E 01 23 03 00 00 06 00 00 00 00 00 31'),
  result('E7 0E 7C 2B 00 00 00 00 00 00 03 00 00 42', [0xBB])], [null, null]);
row('without a decoder nothing is known', [result('E7 0E 7C 2B 01 00 00 00 00 00 00 00 00 40'), programmed.named()], ['CV1: no decoder', []]);
row('a task that is ended', result('E7 0E 7C 2B 08 00 00 00 00 00 00 00 00 49'), 'CV1: ended');

// S-9.2.1: two of the 128 codes are stops, so the steps are 1 to 126; the others round down.
const steps = (spd, kind, motion) => row(`SPD ${spd} of type ${kind}`, motionOf(spd, kind), motion);
[[0, 3, 'stop'], [1, 0, 'emergency'], [2, 3, 'step 1 of 126'], [127, 3, 'step 126 of 126'], [2, 0, 'step 1 of 28'],
  [6, 0, 'step 1 of 28'], [7, 0, 'step 2 of 28'], [127, 0, 'step 28 of 28'], [10, 2, 'step 1 of 14'], [11, 2, 'step 2 of 14'],
  [127, 2, 'step 14 of 14']].forEach((row) => steps(...row));

const line = readNode('node shunter short 3 step 63 of 128 forward F 1000000000001');
row('the line of a locomotive', [line.name, line.address, line.motion, line.share],
  ['shunter', 3, 'step 63 of 126', 0.5]);
row('and its functions', [line.functions[0], line.functions[1], line.functions[12]], [true, false, true]);
row('the last step is full speed', ['3 step 126 of 128', '3 step 28 of 28', '3 step 14 of 14'].map((text) => {
  const { motion, share } = readNode(`node shunter short ${text} forward F 0000000000000`);
  return [motion, share];
}), [['step 126 of 126', 1], ['step 28 of 28', 1], ['step 14 of 14', 1]]);
row('the line of an accessory decoder', readNode('node yard module 1 outputs 01000000').outputs[1], true);
const wanted = (text, ...lines) => lines.map((line) => isWanted(readNode(`node ${line}`), text));
const decoders = ['shunter short 3 stop forward F 0000000000000', 'yard module 20 outputs 00000000'];
row('a decoder is found by its name', wanted(' Shunt', ...decoders), [true, false]);
row('by the first digits of its address',
  ['3', '13', '33'].map((text) => wanted(text, decoders[0])[0]), [true, false, false]);
row('and by its turnouts, of module 20 these are 77 to 80',
  ['77', '80', '81', '20'].map((text) => wanted(text, decoders[1])[0]), [true, true, false, false]);
row('without a text every decoder is shown', wanted('', ...decoders), [true, true]);
row('a line with markup is no line', readNode('node <b>x</b> module 1 outputs 01000000'), null);

const plan = new Plan();
const tell = (...lines) => lines.forEach((text) => plan.hear(text));
tell('BLOCK main 1500 a 300 100 b 700 -100', 'BLOCK siding 1500', 'TRAIN shunter main 6 b main 125');
row('a block is drawn from end a to end b', ['a', 'b'].map((end) => plan.blocks.get('main')[end]),
  [{ x: 300, y: 100 }, { x: 700, y: -100 }]);
row('a plan with an end that has no place is a list', plan.isDrawn, false);
row('a train has its speed', plan.trains.get('shunter').speed, 125);
row('which says whose', plan.reason, 'No drawing: the plan gives no place to siding.a, siding.b.');
row('a block says which train is in it', ['main', 'siding'].map((block) => plan.wordsOf(block)), ['shunter', 'free']);
tell('TRAIN express siding 0 a main 0 derailed');
row('two trains in a block are a conflict', plan.wordsOf('main'), 'conflict: shunter, express derailed');
row('a train is in the blocks of both its ends', plan.wordsOf('siding'), 'express derailed');
tell('TRAIN express siding 0 a siding 0');
tell('TURNOUT 7 main.a siding.a siding.b closed');
const derailment = (words) => {
  plan.hear(`TRAIN express ${words} 0 derailed`);
  return Object.values(plan.derailment(plan.trains.get('express')));
};
row('a train whose front is at its end derailed ahead', derailment('main 0 a main'), ['at turnout 7', 'it lay against the train']);
row('or behind, in reverse', derailment('siding 3 b siding'), ['at turnout 7', 'it lay against the train']);
row('in two blocks on the turnout between them', derailment('main 2 b siding'), ['at turnout 7', 'it was thrown under the train']);
row('a block without a turnout is named', derailment('main 10 b main'), ['in main', '']);
tell('TRAIN express siding 0 a siding 0');
row('until its rear has left one', ['main', 'siding'].map((block) => plan.wordsOf(block)), ['shunter', 'express']);

plan.forget();
tell('BLOCK west 500', 'BLOCK main 500', 'BLOCK siding 500', 'BLOCK east 500', 'BLOCK loop 500', 'JOINT east.b loop.a');
tell('TURNOUT 8 west.b main.a siding.a closed', 'TURNOUT 9 east.a main.b siding.b closed', 'TRAIN long loop 1 b west 0');
const under = () => plan.blocksOf(plan.trains.get('long'));
row('a train is in all blocks between its ends', under(), ['loop', 'east', 'main', 'west']);
tell('TURNOUT 8 west.b main.a siding.a thrown', 'TURNOUT 9 east.a main.b siding.b thrown');
row('as the turnouts lie', under(), ['loop', 'east', 'siding', 'west']);
tell('TURNOUT 9 east.a main.b siding.b moving');
row('or on the shortest way', under().length, 4);
row('a block between them says so', ['east', 'loop', 'siding'].map((block) => plan.wordsOf(block)), ['long', 'long', 'free']);

const station = new Station();
const hear = (text) => station.hear(bytesOf(text), false);
const verdict = () => verdictOf(station, readNode('node shunter short 3 step 63 of 128 forward F 0000000000000')).words;
row('nothing is claimed before the power is known', verdict(), 'power not known');
hear('E7 0E 01 33 03 40 00 07 00 00 00 00 00 60');
row('slot data that answers nothing is not believed', station.power, 'unknown');
hear('BB 01 00 45');
hear('E7 0E 01 33 03 40 00 07 00 00 00 00 00 60');
row('a locomotive that runs as its slot asks', verdict(), 'as asked');
hear('A0 01 00 5E');
row('and not yet, after another speed', verdict(), 'not yet: stop');
hear('A0 01 40 1E');
hear('A1 01 30 6F');
row('nor after another direction and F0', verdict(), 'not yet: reverse, F0 on');
hear('A1 01 20 7F');
row('a direction alone may be reversed by CV29', verdict(), 'not yet: reverse, or CV29 reverses it');
hear('85 7A');
row('nothing is claimed while paused', [station.power, verdict()], ['paused', 'power paused']);
hear('82 7D');
hear('85 7A');
row('a stop of all without power is passed over', station.power, 'off');
hear('83 7C');
hear('ED 0B 7F 23 22 03 21 00 00 00 45');
hear('B4 7D 7F 49');
row('F9 to F12 are known once they were asked', functionsOf(station.slots[1]).slice(9), [true, false, false, false]);
hear('B5 01 03 48');
row('a slot that is set free', station.slots[1], null);
hear('B0 04 10 5B');
hear('B4 30 00 7B');
row('a turnout that is refused', station.turnoutOf(5).refused > 0, true);
row('and not as it was asked', station.turnoutOf(5).asked, null);
row('the words of a refusal', refusalWords('turnout 5 thrown, on', 'turnout refused'), 'Refused: turnout 5 thrown, on');
row('with the reason', refusalWords('take locomotive 77', 'no free slot for the locomotive'),
  'Refused: take locomotive 77 (no free slot for the locomotive)');
station.forgetRefusals(Date.now() - 60000);
row('its refusal is remembered for a minute', station.turnoutOf(5).refused > 0, true);
station.forgetRefusals(Date.now());
row('and then forgotten', station.turnoutOf(5).refused, 0);

const put = [];
const talk = new Talk((text) => put.push(text), { message() {}, node() {}, joined() {}, refused() {} });
const answer = talk.send(ask.address(3));
['RECEIVE 83 7C', 'WORDS on', 'RECEIVE BF 00 03 43', 'WORDS take', 'SENT OK', 'RECEIVE B4 3F 00 74', 'WORDS none free']
  .forEach((text) => talk.hear(text));
const told = [];
const refused = new Talk(() => {}, { message: (bytes, words, own) => told.push([hexOf(bytes), words, own]) });
refused.send(turnoutRequest(2048, true, true));
['RECEIVE B0 7F 3F 0F', 'WORDS ours', 'SENT OK', 'RECEIVE B4 30 00 7B', 'WORDS refused', 'RECEIVE 83 7C', 'WORDS of another']
  .forEach((text) => refused.hear(text));
row('whose messages these are, and their words', told,
  [['B0 7F 3F 0F', 'ours', true], ['B4 30 00 7B', 'refused', true], ['83 7C', 'of another', false]]);
const places = [talk.place('express', 'back', '1500', 'a'), talk.place('express', 'back', '10', 'b')];
row('a train is put back by', put.slice(-2), ['PLACE express back 1500 a', 'PLACE express back 10 b']);
['PLACE OK', 'PLACE ERROR the train does not fit there'].forEach((text) => talk.hear(text));
places.push(talk.place('express', 'main', '700', 'a'));
const wrong = talk.send({ words: '', bytes: [0x83, 0x7D] });
talk.hear('SENT ERROR wrong check byte');
const late = talk.send(ask.powerOn());
talk.end();
Promise.all([answer, wrong, late, ...places]).then(([first, second, third, ...placed]) => {
  row('which is done, is refused, or may be done', placed.map(({ error, mayBeSent }) => [error, mayBeSent ?? false]),
    [['', false], ['the train does not fit there', false], ['the connection was lost', true]]);
  row('the line that is sent', put[0], 'SEND BF 00 03 43');
  row('the reply behind the own message, and its words', [hexOf(first.reply), first.words], ['B4 3F 00 74', 'none free']);
  row('a message that is refused', second.error, 'ERROR wrong check byte');
  row('a message under way when the connection ends', third.error, 'the connection was lost');
  row('that may have been sent', [second, third].map(({ mayBeSent }) => mayBeSent ?? false), [false, true]);
  console.log(JSON.stringify(rows));
});
"""


def try_model():
    """The first script of the page, without a document."""
    if not shutil.which("node"):
        print("--  the model is not checked: there is no node here")
        return
    model = re.search(r'<script id="model">(.*?)</script>', PAGE.read_text(), re.DOTALL).group(1)
    run = subprocess.run(["node", "-"], input=model + MODEL_CHECKS, capture_output=True, text=True)
    if run.returncode:
        raise SystemExit(run.stderr)
    for row in json.loads(run.stdout):
        check(row["name"], row["found"], row["wanted"])
