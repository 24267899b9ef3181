#!/usr/bin/env python3
"""reading.py TABLE: compares the rows of a table of patterns with the grammar.

It is the relation of `crates/regex_meaning` once more, constructor by constructor: each function gives all ends and values, so every derivation is
tried. It tells each row of which the tree is another (DIFF), and each pattern with two trees (TWO), and fails where there is one.

  tools/reading.py crates/test_patterns/src/table.rt
"""
import sys
sys.setrecursionlimit(10000)
MAXU=2**64-1
def fold(c,u):
    if not u: return c-32 if 97<=c<=122 else c
    if c==0x17f: return 115
    if c==0x212a: return 107
    return c+32 if 65<=c<=90 else c
def up(c): return c-32 if 97<=c<=122 else c
def lo(c): return c+32 if 65<=c<=90 else c
def expand(c,i,u):
    if not i: return [c]
    f=fold(c,u); a,b=up(f),lo(f)
    r=[f] if a==b else [a,b]
    if u and f==115: r.append(0x17f)
    if u and f==107: r.append(0x212a)
    return r
def dv(c):
    return c-48 if 48<=c<58 else c-55 if 65<=c<91 else c-87 if 97<=c<123 else 36
def isin(c,s): return c in [ord(x) for x in s]
def alnum(c): return 48<=c<=57 or 65<=c<=90 or 97<=c<=122
def word(w,t): # t = word ++ rest
    w=tuple(map(ord,w))
    if t[:len(w)]==w: yield t[len(w):]
def digits(base,t):
    k=0
    while k<len(t) and dv(t[k])<base: k+=1
    if k>0:
        n=0
        for c in t[:k]: n=base*n+dv(c)
        yield t[k:],n
def hexn(n,t):
    if len(t)>=n and all(dv(c)<16 for c in t[:n]):
        v=0
        for c in t[:n]: v=16*v+dv(c)
        yield t[n:],v
def pair(t):
    for a,l in hexn(4,t):
        if 0xd800<=l<=0xdbff:
            for b in word("\\u",a):
                for th,tr in hexn(4,b):
                    if 0xdc00<=tr<=0xdfff: yield th,0x10000+(l-0xd800)*0x400+tr-0xdc00
def uesc(u,t):
    if u: yield from pair(t)
    for th,c in hexn(4,t):
        if not(u and list(pair(t))): yield th,c
    if u:
        for a in word("{",t):
            for b,c in digits(16,a):
                for th in word("}",b):
                    if c<=0x10ffff: yield th,c
CTRL={116:9,110:10,118:11,102:12,114:13}
def cesc(u,t):
    if t and t[0] in CTRL: yield t[1:],CTRL[t[0]]
    for th in word("0",t):
        if not(th and 48<=th[0]<=57): yield th,0
    for a in word("x",t): yield from hexn(2,a)
    for a in word("u",t): yield from uesc(u,a)
    if t and not alnum(t[0]): yield t[1:],t[0]
def bname(c): return 65<=c<=90 or 97<=c<=122 or isin(c,"_$")
def gname(t):
    for k in range(1,len(t)):
        n=t[:k]
        if t[k]==62 and bname(n[0]) and all(bname(d) or 48<=d<=57 for d in n): yield t[k+1:],n
def qprefix(t):
    for x in word("*",t): yield x,0,None
    for x in word("+",t): yield x,1,None
    for x in word("?",t): yield x,0,1
    c=lambda n:min(n,MAXU)
    for a in word("{",t):
        for b,n in digits(10,a):
            for x in word("}",b): yield x,c(n),c(n)
            for x in word(",}",b): yield x,c(n),None
            for y in word(",",b):
                for d,m in digits(10,y):
                    for x in word("}",d): yield x,c(n),c(m)
def isq(t): return any(True for _ in qprefix(t))
def quant(t):
    for th,l,m in qprefix(t):
        ok = m is None or l<=m
        if ok and not list(word("?",th)): yield th,(l,m,True)
        for x in word("?",th):
            if ok: yield x,(l,m,False)
D=[(0x30,0x39)];W=[(0x30,0x39),(0x41,0x5a),(0x5f,0x5f),(0x61,0x7a)]
S=[(9,13),(32,32),(0xa0,0xa0),(0x1680,0x1680),(0x2000,0x200a),(0x2028,0x2029),(0x202f,0x202f),(0x205f,0x205f),(0x3000,0x3000),(0xfeff,0xfeff)]
CL={ord('d'):(D,False),ord('D'):(D,True),ord('w'):(W,False),ord('W'):(W,True),ord('s'):(S,False),ord('S'):(S,True)}
def inint(s,c): return any(a<=c<=b for a,b in s)
def closed(F,test,c): return any(test(d) for d in expand(c,'i' in F,'u' in F))
def isof(F,c,m):
    if m[0]=='c': return c==m[1]
    if m[0]=='r': return m[1]<=c<=m[2]
    t=closed(F,lambda d:inint(m[1],d),c)
    return (c<=0x10ffff and not t) if m[2] else t
def setof(F,ms):
    # the one set of intervals, apart, of what is closed
    pts={0,0x110000}
    for x in [0x17f,0x212a]+list(range(65,91))+list(range(97,123)): pts|={x,x+1}
    for m in ms:
        if m[0]=='c': pts|={m[1],m[1]+1}
        elif m[0]=='r': pts|={m[1],m[2]+1}
        else:
            for a,b in m[1]: pts|={a,b+1}
    pts=sorted(pts); out=[]
    for a,b in zip(pts,pts[1:]+[None]):
        if closed(F,lambda d:any(isof(F,d,m) for m in ms),a):
            assert b is not None
            if out and out[-1][1]+1==a: out[-1]=(out[-1][0],b-1)
            else: out.append((a,b-1))
    return tuple(out)
def catom(F,t):
    if t and not isin(t[0],"\\]"): yield t[1:],('c',t[0])
    for a in word("\\",t):
        if a and a[0] in CL: yield a[1:],('k',)+CL[a[0]]
        yield from ((th,('c',c)) for th,c in cesc('u' in F,a))
    for th in word("\\b",t): yield th,('c',8)
def isrange(t): return len(t)>=2 and t[0]==45 and t[1]!=93
def cmem(F,t):
    for th,m in catom(F,t):
        if not isrange(th): yield th,[m]
        for b in word("-",th):
            for x,n in catom(F,b):
                if m[0]=='c'==n[0]:
                    if m[1]<=n[1]: yield x,[('r',m[1],n[1])]
                else: yield x,[m,('c',45),n]
def cranges(F,t):
    for th in word("]",t): yield th,[]
    for a,ms in cmem(F,t):
        for th,o in cranges(F,a): yield th,ms+o
def setop(t):
    if not t: return False
    if len(t)==1: return t[0]==91
    c,d=t[0],t[1]
    if c==92: return setop(t[2:])
    if c==91: return True
    if c==93: return False
    if isin(c,"&-") and c==d: return True
    return setop(t[1:])
def cclass(F,t):
    if 'v' in F and setop(t): return
    if not list(word("^",t)):
        for th,ms in cranges(F,t): yield th,('bracket',False,setof(F,ms))
    for a in word("^",t):
        for th,ms in cranges(F,a): yield th,('bracket',True,setof(F,ms))
def cnode(F,c):
    m=expand(c,'i' in F,'u' in F)
    return ('set',tuple(m)) if len(m)>1 else ('char',c)
def leaf(w,t):
    F,G=w
    if t and not isin(t[0],"^$\\.*+?()[]{}|"): yield t[1:],cnode(F,t[0])
    if t and isin(t[0],"{}]") and 'u' not in F and not isq(t): yield t[1:],cnode(F,t[0])
    for th in word(".",t): yield th,('any',) if 's' in F else ('dot',)
    for a in word("\\",t):
        if not list(word("0",a)):
            for th,n in digits(10,a):
                if G is None or n<=len(G): yield th,('ref',n,'i' in F)
        for th,c in cesc('u' in F,a): yield th,cnode(F,c)
        if a and a[0] in CL: yield a[1:],('bracket',CL[a[0]][1],setof(F,[('k',CL[a[0]][0],False)]))
    for a in word("\\k<",t):
        for th,n in gname(a):
            if G is None: yield th,('ref',0,'i' in F)
            elif n in G: yield th,('ref',G.index(n)+1,'i' in F)
    for a in word("[",t): yield from cclass(F,a)
def arm(b,ts): return ('cat',tuple(reversed(ts)) if b else tuple(ts))
def disj(w,b,p):
    for q,ts in alt(w,b,p):
        yield q,arm(b,ts)
        for x in word("|",q[0]):
            for s,r in disj(w,b,(x,q[1])): yield s,('alt',arm(b,ts),r)
def alt(w,b,p):
    yield p,[]
    for q,n in term(w,b,p):
        for r,ns in alt(w,b,q): yield r,[n]+ns
def term(w,b,p):
    yield from assertion(w,p)
    for q,n in atom(w,b,p):
        if not isq(q[0]): yield q,n
        for th,k in quant(q[0]): yield (th,q[1]),('loop',k,len(p[1]),len(q[1]),n)
def assertion(w,p):
    F=w[0];t,o=p
    for x in word("^",t): yield (x,o),('start','m' in F)
    for x in word("$",t): yield (x,o),('end','m' in F)
    for inv,s in((False,"\\b"),(True,"\\B")):
        for x in word(s,t): yield (x,o),('boundary',inv,'i' in F and 'u' in F)
    for neg,back,s in((False,False,"(?="),(True,False,"(?!"),(False,True,"(?<="),(True,True,"(?<!")):
        for x in word(s,t):
            for r,n in disj(w,back,(x,o)):
                for y in word(")",r[0]): yield (y,r[1]),('look',neg,back,len(o),len(r[1]),n)
def atom(w,b,p):
    t,o=p
    for th,n in leaf(w,t): yield (th,o),n
    for x in word("(",t):
        if not list(word("?",x)):
            for r,n in disj(w,b,(x,o+((),))):
                for y in word(")",r[0]): yield (y,r[1]),('group',len(o),(),n)
    for x in word("(?<",t):
        for th,name in gname(x):
            for r,n in disj(w,b,(th,o+(name,))):
                for y in word(")",r[0]): yield (y,r[1]),('group',len(o),name,n)
    for x in word("(?:",t):
        for r,n in disj(w,b,(x,o)):
            for y in word(")",r[0]): yield (y,r[1]),n
def parses(F,t):
    t=tuple(t); trees=[]
    guesses={q[1] for q,n in disj((F,None),False,(t,())) if q[0]==()}
    for g in guesses:
        names=[x for x in g if x]
        if len(set(names))!=len(names): continue
        for q,n in disj((F,g),False,(t,())):
            if q==((),g): trees.append(('cat',(n,('goal',))))
    return trees
def cp(c): return chr(c) if 0x20<c<0x7f else "<%X>"%c
def show(n,opt=False):
    k=n[0]
    if k=='cat': return "Cat["+", ".join(show(x,opt) for x in n[1])+"]"
    if k=='alt': return f"Alt({show(n[1],opt)}, {show(n[2],opt)})"
    if k=='goal': return "Goal"
    if k=='char': return cp(n[1])
    if k=='set': return "Set("+"".join(map(cp,n[1]))+")"
    if k=='bracket': return ("[^" if n[1] else "[")+"".join(cp(a)+("-"+cp(b) if a<b else "") for a,b in n[2])+"]"
    if k=='any': return "Any"
    if k=='dot': return "Dot"
    if k=='start': return f"StartOfLine({str(n[1]).lower()})"
    if k=='end': return f"EndOfLine({str(n[1]).lower()})"
    if k=='boundary': return f"Boundary({str(n[1]).lower()}, {str(n[2]).lower()})"
    if k=='ref': return f"Ref{n[1]}({str(n[2]).lower()})"
    if k=='group': return f"Group{n[1]}"+"".join(map(chr,n[2]))+"("+show(n[3],opt)+")"
    if k=='look': return ("Not" if n[1] else "")+("Behind" if n[2] else "Ahead")+f"{n[3]}..{n[4]}("+show(n[5],opt)+")"
    if k=='loop':
        (l,m,g),a,b,x=n[1:]
        one=opt and x[0] in('char','set','bracket','any','dot')
        h="{"+f"{l},"+("" if m is None else str(m))+("}" if g else "}?")
        return ("Loop1CharBody"+h if one else f"Loop{h}{a}..{b}")+"("+show(x,opt)+")"
if __name__=="__main__":
    rows=open(sys.argv[1]).read().split('r"',1)[1].rsplit('";',1)[0].split("\n")
    bad=0;two=0;n=0
    for l in rows:
        if not l: continue
        row,_,want=l.partition(" → ")
        if not want: want="refused"
        letters,_,pat=row.partition(":")
        t=parses(letters,[ord(c) for c in pat])
        n+=1
        got="refused" if not t else show(t[0],'o' in letters)
        if len(t)>1: two+=1; print("TWO",l)
        if got!=want: bad+=1; print("DIFF",l,"\n  got",got)
    print(n,"rows",bad,"differ",two,"have two trees")
    sys.exit(bad+two>0)
