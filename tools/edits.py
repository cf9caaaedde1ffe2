import glob,os,sys
bad=0;tot=0
for p in sorted(glob.glob('crates/*/must-fail/*.edit')):
    tot+=1
    c=p.split('/must-fail')[0]
    f=None;t=None;ok=True;olds=[]
    for l in open(p).read().split('\n'):
        if l.startswith('file: '):
            f=c+'/'+l[6:].strip(); t=open(f).read() if os.path.exists(f) else ''
        elif l.startswith('old: '):
            o=l[5:]; k=t.count(o)
            if k!=1: ok=False; olds.append((k,o))
            old=o
        elif l.startswith('new: '):
            t=t.replace(old,l[5:],1)
    if not ok:
        bad+=1; print(p,f.split('/')[-1],olds)
print(tot,bad)
