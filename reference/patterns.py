"""An independent reader of pattern texts: it tries all derivations. Run with the folder `crates` to write the samples of
`pattern_cases` and `explain`: their input, and the output that the rules give."""
names=["TEST","MISS","DROP","BACK","BATT","MAINS","CALL","TALK","DONE","VISIT"]
def stretches(text):
    out=[];i=0
    while i<len(text):
        b=text[i]
        if b==32: i+=1; continue
        if 65<=b<=90:
            j=i
            while j<len(text) and 65<=text[j]<=90: j+=1
            out.append((i,text[i:j])); i=j
        else:
            out.append((i,text[i:i+1])); i+=1
    return out
def parse_part(ts,i):
    res=[]
    a,more=parse_atom(ts,i)
    for t,j in a:
        res.append((t,j))
        if j==len(ts): more=True
        elif ts[j]=='+': res.append((('plus',t),j+1))
    return res,more
def parse_atom(ts,i):
    if i==len(ts): return [],True
    x=ts[i]
    if x in names: return [(x,i+1)],False
    if x=='(':
        r,m=parse_part(ts,i+1); out=[]
        for t,j in r:
            if j==len(ts): m=True
            elif ts[j]==')': out.append((t,j+1))
        return out,m
    if x=='SEQ':
        if i+1==len(ts): return [],True
        if ts[i+1]!='(': return [],False
        more=False; states=[([],i+2)]; out=[]
        while states:
            ps,k=states.pop()
            r,m=parse_part(ts,k); more|=m
            for t,j in r:
                if j==len(ts): more=True
                elif ts[j]==',': states.append((ps+[t],j+1))
                elif ts[j]==')' and len(ps)>=1: out.append((('seq',ps+[t]),j+1))
        return out,more
    return [],False
def begins(ts):
    r,m=parse_part(ts,0)
    return m or any(j==len(ts) for t,j in r)
def whole(ts):
    r,m=parse_part(ts,0)
    s=[t for t,j in r if j==len(ts)]
    assert len(s)<=1
    return s[0] if s else None
def wr(t):
    if isinstance(t,str): return t
    if t[0]=='plus':
        u=t[1]
        return ("("+wr(u)+")" if isinstance(u,tuple) and u[0]=='plus' else wr(u))+"+"
    return "SEQ("+",".join(map(wr,t[1]))+")"
def read(text):
    if not 1<=len(text)<=250: return (1,0,None)
    ts=[]
    for p,w in stretches(text):
        s=w.decode('latin1')
        if not 65<=w[0]<=90 and s not in "(),+": return (2,p,None)
        if 65<=w[0]<=90 and s!="SEQ" and s not in names: return (3,p,None)
        if not begins(ts+[s]): return (4,p,None)
        ts.append(s)
        if ts.count('(')-ts.count(')')>16: return (5,p,None)
        if s in names and ts.count(s)>1: return (6,p,None)
    t=whole(ts)
    if t is None: return (4,len(text),None)
    return (0,0,t)
def start(t): return t if isinstance(t,str) else start(t[1]) if t[0]=='plus' else start(t[1][0])
def end(t): return t if isinstance(t,str) else end(t[1]) if t[0]=='plus' else end(t[1][-1])
def steps(t):
    if isinstance(t,str): return set()
    if t[0]=='plus': return steps(t[1])|{(end(t[1]),start(t[1]))}
    s=set()
    for u in t[1]: s|=steps(u)
    for a,b in zip(t[1],t[1][1:]): s.add((end(a),start(b)))
    return s

if __name__=="__main__":
    import random,sys
    folder=sys.argv[1]
    cs=[b"BATT",b"BATT+",b"(BATT)",b"((BATT))",b"(BATT)+",b"(BATT+)",b"(BATT+)+",b"((BATT+)+)+",b"((BATT)+)",b"SEQ(DROP,MISS)",b"SEQ(DROP,MISS+)+",b"SEQ(DROP,MISS+)",b" SEQ ( DROP , MISS + ) + ",b"SEQ((DROP),MISS)",b"SEQ(DROP,SEQ(MISS,BACK))",b"SEQ(SEQ(DROP,MISS),BACK)",b"SEQ(DROP,MISS,BACK)",b"(SEQ(DROP,MISS))+",b"SEQ(TEST,MISS,DROP,BACK,BATT,MAINS,CALL,TALK,DONE,VISIT)",b"((((((((((((((((BATT))))))))))))))))",
     b"",b" ",b"     ",b"BATT++",b"BATT BATT",b"SEQ(DROP,DROP)",b"SEQ(DROP)",b"SEQ",b"SEQ(",b"SEQ(DROP,",b"SEQ(DROP,MISS",b"SEQ DROP",b"SEQ()",b"()",b"(BATT",b"BATT)",b"+",b",",b")",b"BATT,MISS",b"batt",b"BATT-",b"BAT",b"BATTERY",b"SEQX(DROP,MISS)",b"BATT FOO",b"SEQ(DROP,MISS)BATT",b"SEQ(DROP MISS)",b"SEQ(DROP+,DROP)",b"SEQ(BATT+,(BATT))",b"((((((((((((((((BATT(",b"(((((((((((((((((",b"(((((((((((((((((BATT)))))))))))))))))",b"((((((((((((((((SEQ(DROP,MISS)",b"SEQ(((((((((((((((((",b"BATT"+b" "*246,b"BATT"+b" "*247,b" "*250,b" "*251,b"BATT\r",b"BATT\x00",b"\xff",b"(BATT+)++",b"((BATT+)+)++",b"BATTSEQ",b"SEQ(DROP,MISS,)",b"SEQ(,DROP)",b"(DROP,MISS)",b"SEQ((DROP,MISS))",b"BATT +",b"S EQ(DROP,MISS)",b"SEQ(DROP;MISS)",b"DROP DROP+",b"BATT"*63]
    random.seed(7)
    toks=["BATT","DROP","MISS","SEQ","(",")",",","+"," "]
    def rnd(d,ns):
        r=random.random()
        if d==0 or r<.35 or len(ns)<2: t=ns.pop() if ns else "BATT"
        elif r<.6: t="("+rnd(d-1,ns)+")"
        else: t="SEQ("+",".join(rnd(d-1,ns) for _ in range(random.randint(2,3)))+")"
        return t+("+" if random.random()<.4 else "")
    for _ in range(60):
        ns=names[:]; random.shuffle(ns)
        t=rnd(4,ns)
        if random.random()<.5:
            k=random.randrange(len(t)+1); t=t[:k]+random.choice(["+",")","(",","," ","A","x",""])+t[k+random.randint(0,1):]
        cs.append(t.encode())
    for _ in range(40): cs.append("".join(random.choice(toks) for _ in range(random.randint(1,9))).encode())
    with open(folder+'/pattern_cases/stdin','wb') as f: f.write(b"\n".join(cs)+b"\n")
    with open(folder+'/pattern_cases/stdout','w') as f:
        for c in cs:
            n,p,t=read(c)
            f.write("0 "+wr(t)+"\n" if n==0 else "%d at %d\n"%(n,p))
    # explain sample
    reasons={1:"a pattern text has 1 to 250 bytes",2:"no pattern has this byte",3:"this word is neither SEQ nor an event type",4:"no pattern goes on or ends like this",5:"more than 16 brackets are open",6:"this event type stands here a second time"}
    ex=[b"BATT",b"BATT+",b"(BATT+)+",b"SEQ ( DROP , (MISS)+ )+",b"SEQ(MAINS,SEQ(DROP,BACK)+,DONE)",b"",b"BATT;",b"BATTERY+",b"BATT++",b"SEQ(DROP,MISS",b"(((((((((((((((((BATT",b"SEQ(DROP,DROP)",b"TEST\t+",b"BATT\x00",b"BATT\x7f",b"\x80BATT",b"BATT\xff+"]
    with open(folder+'/explain/stdin','wb') as f: f.write(b"\n".join(ex)+b"\n")
    with open(folder+'/explain/stdout','w') as f:
        for c in ex:
            f.write("".join(chr(b) if 32<=b<=126 else "?" for b in c)+"\n")
            n,p,t=read(c)
            if n: f.write(" "*p+"^\n    refused %d at %d: %s\n"%(n,p,reasons[n]))
            else:
                st=" ".join("%s>%s"%(a,b) for a in names for b in names if (a,b) in steps(t)) or "none"
                f.write("    pattern %s\n    start %s\n    end %s\n    steps %s\n"%(wr(t),start(t),end(t),st))
