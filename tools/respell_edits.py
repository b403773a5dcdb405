#!/usr/bin/env python3
"""Brings the texts of the must-fail edits to the spelling that the files have now, and names each text that does not stand once.

usage: respell_edits.py      once, at the top, after respell.py (docs/PORT.md); reads tools/respell.tsv
"""
import glob
import re

ID=r"[A-Za-zα-ωΑ-Ω_][\w'\-₀-₉]*"
T=re.compile(r"(?<![\w'\-])"+ID)
rows=dict(l.rstrip('\n').split('\t') for l in open('tools/respell.tsv'))
def snake(n):
    n=n.replace('getD','get_or')
    n=re.sub(r"(?<=[a-z0-9])([A-Z])",lambda m:'_'+m.group(1).lower(),n)
    return n.replace('-','_')
bad=0
for e in sorted(glob.glob('crates/*/must-fail/*.edit')):
    crate=e.split('/')[1]
    t=open(e).read(); lines=t.split('\n'); out=[]; cur=None
    for ln in lines:
        m=re.match(r"(file|old|new): ?(.*)$",ln)
        if not m: out.append(ln); continue
        k,v=m.groups()
        if k=='file': cur=v.strip(); out.append(ln); text=open(f'crates/{crate}/{cur}').read(); toks=set(T.findall(text)); continue
        if v.startswith(' ') is False and ln.startswith(k+':  '): pass
        v=ln[len(k)+1:]
        def f(m):
            n=m.group(0)
            if n in toks: return n
            s=rows.get(n) or snake(n)
            if s in toks: return s
            return n
        v2=v.replace('′',"'")
        if cur.endswith('.antt'):
            v2=re.sub(r"«(\w+)»",r"\1",v2)
            v2=re.sub(r"(?<=[\w)']) \.(?=[a-z0-9])",".",v2)
            v2=re.sub(r"(?<=[ (])_([^\w\s]+)_(?=[,}])",r"◌\1◌",v2)
            v2=re.sub(r"(?<=\{)_([^\w\s]+)_(?=[,}])",r"◌\1◌",v2)
        v2=T.sub(f,v2)
        if cur.endswith('.antt'): v2=re.sub(r"(?<= )\(([\w']+(\.[\w']+)+)\)",r"\1",v2)
        out.append(k+':'+v2)
    # verify
    new='\n'.join(out)
    if new!=t: open(e,'w').write(new)
    cur=None; txt=None
    for ln in out:
        if ln.startswith('file: '):
            cur=ln[6:].strip(); txt=open(f'crates/{crate}/{cur}').read()
        elif ln.startswith('old: '):
            old=ln[5:]
            if txt.count(old)!=1:
                bad+=1; print(e,cur,txt.count(old)); print('   ',old)
            pend=old
        elif ln.startswith('new: ') or ln=='new:':
            txt=txt.replace(pend,ln[5:])
print('bad',bad)
