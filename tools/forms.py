#!/usr/bin/env python3
"""Counts, by crate, the places of docs/DESIGN-PASS.md's points in crates/*/src and the answers in crates/*/proofs.

forms.py            counts in the work tree
forms.py COMMIT     counts in a commit
forms.py -l POINT [COMMIT]   lists the places of a point

What is counted, point by point:
1  enums; structs with a field of an enum's type or a bool; constants that number something (`const X: u32 = small`);
   functions that turn an enum into a number
2  functions of the same crate or of two crates that are equal but for names, types and numbers (four lines or more)
3  `while` and `loop`
4  a `match` all of whose arms say true or false; a function whose body is one cast; derives without equality
5  two or more parameters, by name and type, that stand together in three or more functions of a crate
6  functions with a slice, a place in it and a length as parameters
7  function pointers, dyn, a `match` that calls a function in each of three or more arms
8  answers (`NAME c = ..` in Answers.antt); `let it :` written out in an answer
"""
import collections, re, subprocess, sys


def files(commit):
    if commit:
        names = subprocess.run(['git', 'ls-tree', '-r', '--name-only', commit, 'crates'], capture_output=True, text=True, check=True).stdout.split('\n')
        read = lambda f: subprocess.run(['git', 'show', commit + ':' + f], capture_output=True, text=True, check=True).stdout
    else:
        names = subprocess.run(['git', 'ls-files', '--cached', '--others', '--exclude-standard', 'crates'], capture_output=True, text=True, check=True).stdout.split('\n')
        import os
        names = [f for f in names if f and os.path.exists(f)]
        read = lambda f: open(f, encoding='utf-8').read()
    for f in names:
        if re.match(r'crates/\w+/src/.*\.rt$', f) or re.match(r'crates/\w+/proofs/.*Answers\.antt$', f):
            yield f, read(f)


def bare(text):
    return re.sub(r'//[^\n]*', '', text)


def functions(text):
    """name, parameters, result and body of each function"""
    out = []
    for m in re.finditer(r'\bfn (\w+)(<[^>]*>)?\(', text):
        i = m.end()
        depth = 1
        while depth and i < len(text):
            depth += {'(': 1, ')': -1}.get(text[i], 0)
            i += 1
        params = text[m.end():i - 1]
        # the body is the first brace that begins a line or ends the signature, past the clauses
        j = i
        body = None
        while j < len(text):
            c = text[j]
            if c == ';' and body is None:
                break
            if c == '{':
                k = j + 1
                depth = 1
                while depth and k < len(text):
                    depth += {'{': 1, '}': -1}.get(text[k], 0)
                    k += 1
                before = text[i:j].rsplit('\n', 1)[-1]
                if re.search(r'\b(requires|ensures)\b[^{}]*$', before):
                    j = k
                    continue
                body = text[j + 1:k - 1]
                break
            j += 1
        if body is not None:
            head = text[i:j]
            result = re.match(r'\s*->\s*([^\n{]+)', head)
            out.append((m.group(1), params, result.group(1).strip() if result else '', body))
    return out


def parameters(params):
    ps = []
    depth = 0
    word = ''
    for c in params + ',':
        if c in '([{<':
            depth += 1
        if c in ')]}>':
            depth -= 1
        if c == ',' and depth == 0:
            if ':' in word:
                n, t = word.split(':', 1)
                ps.append((n.replace('mut ', '').strip(), ' '.join(t.split())))
            word = ''
        else:
            word += c
    return ps


def normal(body):
    body = ' '.join(body.split())
    body = re.sub(r'b?\'[^\']*\'|b?"[^"]*"', 'X', body)
    body = re.sub(r'\b(0x[0-9a-fA-F_]+|\d[\d_]*)\b', 'N', body)
    names = {}
    keep = {'if', 'else', 'while', 'loop', 'for', 'in', 'return', 'let', 'mut', 'match', 'as', 'true', 'false', 'self'}
    def one(m):
        w = m.group(0)
        if w in keep:
            return w
        return names.setdefault(w, 'v%d' % len(names))
    return re.sub(r'\b[A-Za-z_]\w*\b', one, body)


def places(commit):
    found = collections.defaultdict(list)
    bodies = collections.defaultdict(list)
    enums = set()
    texts = []
    for f, t in files(commit):
        if f.endswith('.antt'):
            crate = f.split('/')[1]
            for m in re.finditer(r'(?m)^([\w-]+) (?:\w+ )+=', t):
                found['8 answers'].append((crate, f, m.group(1)))
            for m in re.finditer(r'let it\b', t):
                found['8 written out'].append((crate, f, 'let it'))
            continue
        t = bare(t)
        texts.append((f, t))
        for m in re.finditer(r'\benum (\w+)', t):
            enums.add(m.group(1))
    for f, t in texts:
        crate = f.split('/')[1]
        for m in re.finditer(r'\benum (\w+)', t):
            found['1 enums'].append((crate, f, m.group(1)))
        for m in re.finditer(r'\bstruct (\w+)[^{;(]*\{([^}]*)\}', t):
            for field in re.findall(r'(\w+):\s*([\w:<>, ]+)', m.group(2)):
                if field[1].strip(' ,') in enums or field[1].strip(' ,') == 'bool':
                    found['1 fields'].append((crate, f, m.group(1) + '.' + field[0]))
        for m in re.finditer(r'\bconst (\w+): u32 = (\d+);', t):
            if int(m.group(2)) < 16:
                found['1 numbers'].append((crate, f, m.group(1)))
        for m in re.finditer(r'#\[derive\(([^)]*)\)\]\s*(?:pub(?:\(crate\))? )?(?:struct|enum) (\w+)', t):
            if 'PartialEq' not in m.group(1):
                found['4 no equality'].append((crate, f, m.group(2)))
        for m in re.finditer(r'\b(while|loop)\b', t):
            found['3 ' + m.group(1)].append((crate, f, t[m.start():].split('\n', 1)[0].strip()))
        for m in re.finditer(r'\bdyn\b|:\s*fn\(', t):
            found['7 pointers'].append((crate, f, m.group(0)))
        groups = collections.defaultdict(set)
        for name, params, result, body in functions(t):
            flat = ' '.join(body.split())
            arms = re.findall(r'=> ([^,{}]+),', flat)
            if re.match(r'(let \w+ = [^;]+; )?match', flat):
                if arms and all(a.strip() in ('true', 'false') for a in arms):
                    found['4 true or false'].append((crate, f, name))
                if re.search(r'\bi32\b|\bu32\b', result) and arms and all(re.match(r'-?\w+$', a.strip()) for a in arms) and re.search(r'\w+::\w+', flat):
                    found['1 to numbers'].append((crate, f, name))
                if len(re.findall(r'=> \w[\w:.]*\(', flat)) >= 3:
                    found['7 steps'].append((crate, f, name))
            if re.match(r'\(?\w+ as \w+\)?$', flat):
                found['4 casts'].append((crate, f, name))
            ps = parameters(params)
            for a in range(len(ps)):
                for b in range(a + 1, len(ps)):
                    groups[(ps[a], ps[b])].add(name)
            slices = [p for p in ps if re.search(r'\[u\d+\]', p[1])]
            sizes = [p for p in ps if p[1] in ('usize',)]
            if slices and len(sizes) >= 2:
                found['6 triples'].append((crate, f, name))
            if body.count('\n') >= 4:
                bodies[normal(body)].append((crate, f, name))
        for pair, names in groups.items():
            if len(names) >= 3:
                found['5 together'].append((crate, f, '%s, %s in %d functions' % (pair[0][0], pair[1][0], len(names))))
    for b, at in bodies.items():
        if len(at) > 1:
            for x in at:
                found['2 twins'].append((x[0], x[1], x[2] + ' (one of %d)' % len(at)))
    return found


def main():
    args = sys.argv[1:]
    point = None
    if args and args[0] == '-l':
        point = args[1]
        args = args[2:]
    found = places(args[0] if args else None)
    for key in sorted(found):
        if point is None:
            crates = collections.Counter(x[0] for x in found[key])
            print('%-16s %4d in %d crates' % (key, len(found[key]), len(crates)))
        elif key.startswith(point):
            for crate, f, what in found[key]:
                print('%s: %s: %s' % (key, f, what))


if __name__ == '__main__':
    main()
