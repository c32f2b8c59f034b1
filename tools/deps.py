#!/usr/bin/env python3
"""Prints which names of the lists of crates.txt nothing names any more, and how many steps rt takes to walk the lists: as they are, and without those names."""
import re,os,functools
deps={}; order=[]
for l in open('crates.txt'):
    m=re.match(r"(\w+)(?: staticlib)?:(.*)",l.split('#')[0])
    if m: deps[m[1]]=m[2].split(); order.append(m[1])
new={}; tot=0
for n in order:
    t=''
    for d,ds,fs in os.walk('crates/'+n):
        ds[:]=[x for x in ds if x!='out']
        for f in fs:
            if f.endswith(('.rt','.antt','.edit')): t+=open(os.path.join(d,f)).read()
    used=[d for d in deps[n] if d not in deps or re.search(r"\bRattle\.%s\b|\b%s::|\buse %s\b"%(d,d,d),t)]
    drop=[d for d in deps[n] if d not in used]
    miss=[d for d in order if d!=n and d not in deps[n] and re.search(r"\bRattle\.%s\."%d,t)]
    if drop or miss: print(n,'drop',drop,'miss',miss); tot+=len(drop)
    new[n]=used
def total(D):
    @functools.lru_cache(None)
    def c(n): return 1+sum(c(d) for d in D[n] if d in D)
    return sum(c(n) for n in D), c('claims'), c('clock')
print(total(deps), total(new), tot)
