# SPDX-License-Identifier: Apache-2.0
"""Checks a crate over contracts alone, as tools/over_contracts.py does, and faster: of the crates below that are not built each function is a hole, also
those without a proof file, and each body is `unreachable!()`, so that only what is called counts. One to four minutes a run.

    bare_contracts.py ROOT NAME [rattle's flags]     keeps its work in ROOT/out-bare and ROOT/../bare-of-ROOT: have git ignore both

A script of a session, not a tool: no test holds it. It reads the sources by their layout."""
import os, re, sys, importlib.machinery, importlib.util
sys.dont_write_bytecode = True
loader = importlib.machinery.SourceFileLoader("rtlib", "/opt/rattle/bin/rtlib.py")
rtlib = importlib.util.module_from_spec(importlib.util.spec_from_loader("rtlib", loader)); sys.modules["rtlib"] = rtlib; loader.exec_module(rtlib)
FN = re.compile(r'^(    )?(?:pub(?:\([a-z]+\))? )?(?:const |unsafe )*fn (\w+)')
IMPL = re.compile(r'^(?:unsafe )?impl(?:<[^{]*?>)? (.*)\{?$')
TYPE = re.compile(r'^(?:pub(?:\([a-z]+\))? )?(?:struct|enum) (\w+)')
def module_of(path, src):
    m = os.path.relpath(path, src)[:-3].split('/')
    if m == ['lib']: return []
    return m
def functions(source):
    src = os.path.join(source, 'src')
    files = [os.path.join(d, f) for d, _, fs in os.walk(src) for f in fs if f.endswith('.rt')]
    types = {}
    for f in files:
        for l in open(f, encoding='utf-8'):
            m = TYPE.match(l)
            if m: types[m.group(1)] = module_of(f, src)
    out = []
    for f in files:
        mod = module_of(f, src)
        owner = None; attrs = []; skip = False
        for l in open(f, encoding='utf-8'):
            l = l.rstrip('\n')
            if l.startswith('impl'):
                head = l.rstrip('{').strip()
                head = re.sub(r'^impl(<.*?>)? ', '', head) if not re.match(r"^impl<'a, S: NodeStore>", head) else re.sub(r"^impl<'a, S: NodeStore> ", '', head)
                if ' for ' in f' {head} ': owner = None; skip = True
                else: owner = re.match(r'\w+', head).group(0); skip = False
            elif l.startswith('}'):
                owner = None; skip = False
            elif l.startswith('trait') or l.startswith('pub trait') or l.startswith('pub(crate) trait') or l.startswith('mod ') and l.endswith('{') or l.startswith('macro_rules'): skip = True
            if l.strip().startswith('#['): attrs.append(l.strip()); continue
            m = FN.match(l)
            if m and not skip:
                if not any('#[test' in a for a in attrs):
                    if m.group(1) and owner and owner in types: out.append('/'.join([*types[owner], owner, m.group(2)]))
                    elif not m.group(1): out.append('/'.join([*mod, m.group(2)]))
            if l.strip() and not l.strip().startswith('//'): attrs = []
    return out
HEAD = re.compile(r'^((?:    )?)(?:pub(?:\([a-z]+\))? )?(?:unsafe )*fn (\w+)')
def bare(text):
    lines = text.split('\n'); out = []; i = 0; of_trait = of_drop = False; kept = set()
    while i < len(lines):
        if lines[i].startswith('impl'): of_trait = ' for ' in lines[i]; of_drop = ' Drop for ' in lines[i]
        elif lines[i] == '}': of_trait = of_drop = False
        # a drop keeps its body, and so its cycle
        if of_drop: kept.add(len(out))
        m = None if of_trait else HEAD.match(lines[i])
        if not m: out.append(lines[i]); i += 1; continue
        ind = m.group(1); j = i
        # the line that opens the body
        while True:
            l = lines[j]
            if l == ind + '{' : break
            if l.endswith('{') and (j == i or l.startswith(ind + ')')): break
            if l.endswith(';') and (j == i or l.startswith(ind + ')')) or l == ind + '}' or j == len(lines) - 1: j = -1; break
            if j > i and l.strip() == '': j = -1; break
            j += 1
        if j < 0: out.append(lines[i]); i += 1; continue
        k = j + 1
        while lines[k] != ind + '}': k += 1
        body = '\n'.join(lines[j+1:k])
        out += lines[i:j+1]
        out.append(ind + '    unreachable!()')
        out.append(lines[k]); i = k + 1
    def of_type(i):
        j = i + 1
        while out[j].strip().startswith(('#[', '//')): j += 1
        return not HEAD.match(out[j])
    return '\n'.join(l for i, l in enumerate(out) if not l.strip().startswith('#[cycle(') or i in kept or of_type(i))
def stub(source, to, name):
    new = {}
    def hole(part_path):
        path = '.'.join(part_path.split('/'))
        fn = path.split('.')[-1]
        module = f"Rattle.{name}.proofs.{path}"
        module += '' if fn.startswith('+') else '.Statement'
        new[os.path.join('proofs', part_path, 'Proof.antt')] = f"use {module}.{{statement}}\n\npub {fn}_spec : {{M : Type 1}} → statement M\n{fn}_spec = ?\n"
    for base in ('src', 'specs', 'proofs'):
        top = os.path.join(source, base)
        for folder, _, files in os.walk(top):
            part = os.path.relpath(folder, source)
            is_fn = base == 'proofs' and ('Answers.antt' in files or 'Invariants.antt' in files or 'Proof.antt' in files)
            if is_fn:
                if not os.path.basename(folder).startswith('+') or '-' in os.path.basename(folder): hole(os.path.relpath(folder, top))
                files = [it for it in files if it not in ('Answers.antt', 'Invariants.antt', 'Proof.antt')]
            for it in files:
                text = open(os.path.join(folder, it), encoding='utf-8').read()
                new[os.path.join(part, it)] = bare(text) if it.endswith('.rt') else text
    if name not in os.environ.get('PLAIN', '').split():
        for fn in functions(source): hole(fn)
    for folder, _, files in os.walk(to):
        for it in files:
            if os.path.relpath(os.path.join(folder, it), to) not in new: os.remove(os.path.join(folder, it))
    for path, text in new.items():
        at = os.path.join(to, path)
        os.makedirs(os.path.dirname(at), exist_ok=True)
        if not os.path.exists(at) or open(at, encoding='utf-8').read() != text:
            open(at, 'w', encoding='utf-8').write(text)
def main():
    root, name, *flags = sys.argv[1:]
    root = os.path.realpath(root)
    stubs = f"{os.path.dirname(root)}/bare-of-{os.path.basename(root)}"
    os.chdir(root)
    crates = {c.name: c for c in rtlib.crates_below(root)}
    crate = crates[name]
    below = crate.below()
    built = {}
    for it in below:
        built[it.name] = all(built.get(d.name) for d in it.deps) and it.is_built()
    w = ['--crate-name', name, 'src/main.rt' if crate.is_program else 'src/lib.rt']
    source = [it for it in below if not built[it.name]]
    for lib in crate.of_kit: w += ['--extern', f'{lib}={rtlib.KIT}/rlibs/{lib}.rlib']
    w += ['-L', f'dependency={rtlib.KIT}/rlibs']
    more = {'core', *[k for it in source for k in it.of_kit]} - {*crate.of_kit}
    for lib in sorted(more): w += ['--extern', f'{lib}={rtlib.KIT}/rlibs/{lib}.rlib']
    for it in below:
        if built[it.name]:
            w += ['--extern', f'{it.name}={it.rlib}', '-L', f'dependency={os.path.dirname(it.rlib)}']
        else:
            at = f'{stubs}/{it.name}'
            stub(it.folder, at, it.name)
            uses = dict.fromkeys(['core', *it.of_kit, *[d.name for d in it.deps]])
            w += ['--lib', f"{it.name}:{','.join(uses)}={at}/src/lib.rt"]
    w += ['--antt-project', f'{rtlib.KIT}/rattle/logic/antt-project.json', '--logic-built', f'{rtlib.KIT}/logic_built', '--links', f'{name}=']
    w += ['--incremental', f'{root}/out-bare', '--allow-holes', *flags]
    print('over the contracts of', ' '.join(it.name for it in source) or 'none', flush=True)
    os.chdir(crate.folder)
    os.execv(rtlib.RATTLE, [rtlib.RATTLE, 'check', *w])
main()
