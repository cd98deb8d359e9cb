"""Files that are read again, stopped and go on: the modules of the page in node, with a server that answers when it is told to."""

import csv
import io
import json
import re
import shutil
import tempfile
import unittest
from graphlib import TopologicalSorter
from pathlib import Path

from testing import TOP, need_commands, run

need_commands("node")

PAGE = TOP / "python/crystal_nets/desk/page"
VIEWER = TOP / "python/crystal_nets/pictures/viewer.js"
# What the modules ask of the browser; `asked` has the questions to the server, each with what answers it. Proofs are tested
# at once, and not by another thread as in a browser: so whatever follows an answer is done when a turn is over.
STAGE = """
import { createHmac, timingSafeEqual } from 'node:crypto';
const digest = (secret, ...parts) => parts.reduce((hash, part) => hash.update(part), createHmac('sha256', secret)).digest();
const subtle = { importKey: async (_, secret) => secret, verify: async (_, secret, proof, told) => timingSafeEqual(digest(secret, told), proof) };
Object.defineProperty(globalThis, 'crypto', { value: { subtle, getRandomValues: bytes => bytes.fill(7) } });
const control = () => ({ value: 'fitting', removeAttribute() {}, setAttribute() {}, append() {}, remove() {}, cloneNode: control });
const label = { parentElement: { textContent: ' hydrogen bonds are edges' } };
const choices = { ticked: [], querySelectorAll() { return this.ticked; }, querySelector: () => label };
const SECRET = '0123456789abcdef'.repeat(4), told = [], asked = [];
let isTrue = true;  // whether the server of the page answers
const controls = { ended: { hidden: true }, choose: {}, convention: control(), choices, told: { set textContent(text) { told.push(text); } } };
Object.assign(globalThis, {
  document: { documentElement: { dataset: { palette: '#000000', mostBytes: '64', secret: SECRET } }, getElementById: id => controls[id], createElement: control },
  matchMedia: () => ({ addEventListener() {} }),
  IntersectionObserver: class {
    constructor(seen) { this.seen = seen; }
    observe(target) { this.seen([{ target, isIntersecting: true }]); }
    unobserve() {}
  },
  fetch: (path, { body, method = 'GET', headers, signal }) => new Promise((done, fail) => {
    if (signal?.aborted) return fail(new Error('stopped'));
    const content = value => new TextEncoder().encode(JSON.stringify(value));
    const proof = value => digest(Buffer.from(SECRET, 'hex'), `${headers.Nonce} ${method} ${path} 200\\n`, content(value)).toString('hex');
    const answer = value => done({ ok: true, status: 200, arrayBuffer: async () => content(value),
      headers: { get: () => isTrue ? proof(value) : '00'.repeat(32) } });
    if (path === 'proof') return answer({});
    return asked.push({ path, fields: Object.fromEntries(body), answer });
  }) });
const [{ Source }, { tableText, toldText, unreadText }, { structureOf }] =
  await Promise.all(['sources', 'columns', 'structure'].map(name => import(`${process.argv[1]}/${name}.js`)));
const pause = () => new Promise(done => setTimeout(done));
const questionAt = async place => {  // which is asked after a proof
  while (!asked[place]) await pause();
  return asked[place];
};
const answered = async (place, ...names) => {
  const question = await questionAt(place), { convention } = question.fields;
  question.answer({ total: names.length, isStructure: convention !== 'blocks', waiting: [],
    rows: names.map(name => ({ name, block: `block of ${name}`, convention: convention === 'fitting' ? 'all-atoms' : convention })) });
  await pause();
};
const seen = source => ({ chosen: source.again.value, isStopped: source.isStopped, told: told.splice(0).join(), csv: tableText(source.entries),
  unsaved: unreadText(source.entries), entries: source.entries.map(entry => [entry.name, entry.way?.convention, toldText(entry)]) });
const chosenFor = (source, convention) => { source.again.value = convention; source.again.onchange(); };
const give = what => process.stdout.write(JSON.stringify(what));
"""


class Modules(unittest.TestCase):
    def test_none_is_in_a_circle(self):
        """Each takes what it needs from others by an import, and the order of the imports has no circle."""
        needed = {file.name: set(re.findall(r"(?m)^import .* from './([a-z]+\.js)';$", file.read_text())) for file in (*PAGE.glob("*.js"), VIEWER)}
        order = list(TopologicalSorter(needed).static_order())
        self.assertEqual((set(order), order[-1]), (set(needed), "desk.js"))


class ReadAgain(unittest.TestCase):
    def played(self, script: str) -> list[dict]:
        """What a script gives that is played on the stage."""
        with tempfile.TemporaryDirectory(prefix="net_tools_test.") as folder:
            for file in (*PAGE.glob("*.js"), VIEWER):
                shutil.copy(file, folder)
            Path(folder, "package.json").write_text('{"type": "module"}')  # which node asks for, and a browser does not
            return json.loads(run("node", "--input-type=module", "-e", STAGE + script, folder).stdout)

    def test_what_is_stopped_is_told_as_what_it_is_of(self):
        reading, stopped, late, done = self.played("""
            const source = new Source({ name: 'a.cif', size: 9 }, false), views = [];
            await answered(0, 'one');
            choices.ticked = [{ value: 'hydrogen_bonds' }];
            chosenFor(source, 'pe');
            await questionAt(1);
            views.push(seen(source));
            source.stop();
            views.push(seen(source));
            await answered(1, 'other');
            views.push(seen(source));
            source.goOn();
            await answered(2, 'other');
            views.push(seen(source));
            give(views);""")
        self.assertEqual(reading["entries"], [["one", "fitting", "is being read again | read by all-atoms"]])
        self.assertEqual(reading["unsaved"], "1 net is saved as read before, and being read again")
        self.assertEqual((stopped["chosen"], stopped["isStopped"]), ("fitting", True))
        self.assertEqual(stopped["told"], "a.cif: it was not read again; what is shown is as it was read before")
        self.assertEqual(stopped["entries"], [["one", "fitting", "read by all-atoms"]])
        self.assertEqual(late, {**stopped, "told": ""})  # an answer that comes late is of nothing that is shown
        self.assertEqual((done["chosen"], done["isStopped"]), ("pe", False))
        self.assertEqual(done["entries"], [["other", "pe", "read by pe; hydrogen bonds are edges"]])
        ways = [[(row["net"], row["convention"], row["choices"], row["reason"]) for row in csv.DictReader(io.StringIO(view["csv"]))]
                for view in (reading, stopped, done)]
        self.assertEqual(ways, [[("one", "all-atoms", "", "is being read again")], [("one", "all-atoms", "", "")],
                                [("other", "pe", "hydrogen_bonds", "")]])

    def test_nothing_goes_on_beside_what_is_read_again(self):
        """What was stopped of the first reading is not asked for while the file is read anew."""
        before, after = self.played("""
            const source = new Source({ name: 'a.cif', size: 9 }, false), views = [];
            (await questionAt(0)).answer({ total: 2, isStructure: true, rows: [{ name: 'one' }], waiting: [{ line: 1, text: 'x' }] });
            await questionAt(1);
            source.stop();
            chosenFor(source, 'pe');
            source.goOn();
            await questionAt(2);
            views.push(asked.map(({ path }) => path));
            await answered(2, 'other');
            views.push(seen(source));
            give(views);""")
        self.assertEqual(before, ["nets", "rows", "nets"])
        self.assertEqual([entry[:2] for entry in after["entries"]], [["other", "pe"]])

    def test_what_a_file_holds_decides_and_not_its_name(self):
        """A structure whose name ends as that of nets has a convention, and nets have none."""
        seen = self.played("""
            const structure = new Source({ name: 'a.cgd', size: 9 }, false);
            await answered(0, 'one');
            const nets = new Source({ name: 'b.cif', size: 9 }, false);
            (await questionAt(1)).fields.convention = 'blocks';
            await answered(1, 'two');
            give([structure.isBlocks, nets.isBlocks]);""")
        self.assertEqual(seen, [False, True])

    def test_atoms_are_asked_for_by_the_way_of_their_net(self):
        """Also while the file is being read again."""
        asked = self.played("""
            const source = new Source({ name: 'a.cif', size: 9 }, false);
            await answered(0, 'one');
            source.entries[0].provenance = { units: ['a unit'] };
            chosenFor(source, 'pe');
            structureOf(source.entries[0]);
            await questionAt(2);
            give(asked.map(({ path, fields }) => [path, fields.convention]));""")
        self.assertEqual(asked, [["nets", "fitting"], ["nets", "pe"], ["atoms", "fitting"]])


if __name__ == "__main__":
    unittest.main()
