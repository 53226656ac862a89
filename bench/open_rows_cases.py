import json,copy
def J(x): return json.dumps(x,separators=(',',':'),ensure_ascii=False,sort_keys=True)
root={"_deleted":{"r0-0-1":False},"_id":"0:/","_lastRev":"r0-0-1","_modCount":7,"_revisions":{"r1-0-1":"c"},"_sweepRev":"r0-0-1","_touched":{"r1-0-1":True},"p:jcr:primaryType":{"r0-0-1":{"name":"nt:unstructured"}}}
a={"_commitRoot":{"r1-0-1":0},"_deleted":{"r1-0-1":False},"_id":"1:/a","_modCount":6,"p:jcr:primaryType":{"r1-0-1":{"name":"nt:unstructured"}},"p:p":{"r1-0-1":5}}
sy={"_deleted":{"r0-0-1":False},"_id":"1:/jcr:system","_modCount":2,"p:jcr:primaryType":{"r0-0-1":{"name":"rep:system"}}}
vs={"_deleted":{"r0-0-1":False},"_id":"2:/jcr:system/jcr:versionStorage","_modCount":3,"p:jcr:primaryType":{"r0-0-1":{"name":"rep:versionStorage"}}}
se={"_id":"settings","_modCount":4,"_sessions":1,"checkpoints":{},"readers":{}}
base=[root,a,sy,vs,se]
ins=[];outs=[]
def read(*docs,out=None):
    ins.append(J(list(docs)))
    for i,d in enumerate(docs):
        outs.append(J(d) if out is None else out)
def opened(docs,out,clusters=1,sessions=1):
    ins.append(J({"clusters":clusters,"sessions":sessions,"documents":docs}))
    if isinstance(out,str): outs.append(out)
    else: outs.extend(J(d) for d in out)
def w(d,**k):
    e=copy.deepcopy(d)
    for n,v in k.items():
        n=n.replace('__',':') if n.startswith('p__') else n
        if v is None and n in e: del e[n]
        else: e[n]=v
    return e
no="no document"
read(*base)
# what is read as it was printed
read(w(a,**{"_collisions":{"r2-0-1":["r1-0-1","/a/p"]},"_guard":{"r1-0-1":True},"_prev":[["p1f:/a","r1-0-1","r1-0-1"],["p2:/a","r1-0-1","r0-0-1"]],"_lastRev":"r1-0-1,r2-0-2","p:q":{"r10-0-1":None,"r2-0-1":[1,-2],"r3-0-1":{"empty":"long"},"r4-0-1":"t","r5-0-1":True,"r6-0-1":{"binary":"aGk="},"r7-0-1":{"date":-3},"r8-0-1":{"reference":"00000000-0000-4000-8000-00000000000a"},"ra-0-1":{"path":"/a/b"}}}))
read({"_commitRoot":{"r1-0-1":0},"_id":"pff:/a","_modCount":9,"p:p":{"r1-0-1":5}})
read(w(se,checkpoints={"a":["r1-0-1","r0-0-1"],"b":["",""]},readers={"10":["r1-0-1","r0-0-1"],"2":["r1-0-1","r1-0-1"]}))
read({"_id":"0:/","_modCount":18446744073709551615})
# what is no document
for d in [w(a,p__p={"r1-0-1":{"reference":"00000000-0000-4000-8000-00000000000A"}}), w(a,_touched={}), w(a,_sweepRev="r0-0-1"), w(a,_lastRev=""), w(a,p__p={"r01-0-1":5}), w(a,_id="2:/a"), w(a,_id="01:/a"), w(a,_id="1:/a/"), w(a,_x=1), w(se,_deleted={"r0-0-1":False}), w(a,p__q={}), w(a,_lastRev="r1-0-2,r1-0-1"), w(a,_prev=[["p1f:/b","r1-0-1","r1-0-1"]]), w(a,_prev=[]), w(a,_prev=[["p1F:/a","r1-0-1","r1-0-1"]]), w(a,_revisions={"r1-0-1":"d"}), w(a,_guard={"r1-0-1":False}), w(a,_modCount=None), w(a,_modCount=-1), w(a,_commitRoot={"r1-0-1":4294967296}), w(a,_sessions=1), w(se,_sessions=None), w(se,readers={"02":["",""]}), w(a,p__p={"r1-0-1":{"name":"/"}}), {"_id":"pff:/a","_modCount":9,"_deleted":{"r1-0-1":True}}, 5, [], {}]:
    read(d,out=no)
ins.append('[{"_id":"0:/","_modCount":1.0}]'); outs.append(no)
# opened
op=[w(root,_lastRev="r1-0-1",_sweepRev="r1-0-1",_modCount=8),a,sy,vs,w(se,_modCount=9,_sessions=2)]
opened(base,op)
opened([w(root,_revisions=None)]+base[1:],[w(root,_revisions=None,_touched=None,_modCount=8),{"_id":"1:/a","_modCount":9},sy,vs,w(se,_modCount=10,_sessions=2)])
opened([w(root,_sweepRev="r2-0-1")]+base[1:],"rule 1 document 0")
opened(base,"rule 1 document 0",clusters=2)
opened([w(root,_lastRev="r0-0-1,r0-0-2")]+base[1:],"rule 1 document 0")
opened([root,w(a,p__p={"r1-1-1":5}),sy,vs,se],"rule 2 document 1")
opened([root,w(a,p__p={"r4000000000000000-0-1":5}),sy,vs,se],"rule 2 document 1")
opened([root,a,w(sy,_lastRev="r1-0-2"),vs,se],"rule 2 document 2")
opened([root,a,sy,w(vs,_modCount=2),se],"rule 3 document 3")
opened([root,a,sy,vs,w(se,_sessions=16777153)],"rule 3 document 4")
opened([root,w(a,_modCount=9223372036854775808),sy,vs,se],"rule 3 document 1")
opened([root,w(a,_commitRoot={"r1-0-1":1}),sy,vs,se],"rule 4 document 1")
opened([root,a,sy,w(vs,_deleted={"r0-0-1":True}),se],"rule 5 document 0")
opened([root,w(a,_deleted={"r1-0-1":True}),sy,vs,se],"rule 5 document 1")
ab={"_commitRoot":{"r1-0-1":0},"_deleted":{"r1-0-1":False},"_id":"2:/b/c","_modCount":9,"p:jcr:primaryType":{"r1-0-1":{"name":"nt:unstructured"}}}
opened([root,a,sy,ab,vs,se],"rule 5 document 3")
# the root has a child that is of no type that it admits
opened([root,w(a,**{"p:jcr:primaryType":{"r1-0-1":{"name":"nt:none"}}}),sy,vs,se],"rule 6 document 0")
opened([root,w(a,**{"p:jcr:mixinTypes":{"r1-0-1":"x"}}),sy,vs,se],"rule 6 document 1")
# two at once: the first rule, then the first document
opened([w(root,_sweepRev="r2-0-1"),w(a,p__p={"r1-1-1":5}),sy,vs,se],"rule 1 document 0")
opened([root,w(a,p__p={"r1-1-1":5}),w(sy,_lastRev="r1-0-2"),vs,se],"rule 2 document 1")
# previous documents
pv={"_commitRoot":{"r1-0-1":0},"_id":"p6:/a","_modCount":10,"p:p":{"r1-0-1":5}}
a2=w(a,_commitRoot={"r1-0-1":0,"r2-0-1":0},p__p={"r2-0-1":6},_prev=[["p6:/a","r1-0-1","r1-0-1"]],_modCount=11)
r2=w(root,_revisions={"r1-0-1":"c","r2-0-1":"c"})
opened([r2,a2,sy,vs,pv,se],[w(r2,_lastRev="r2-0-1",_sweepRev="r2-0-1",_modCount=12),a2,sy,vs,pv,w(se,_modCount=13,_sessions=3)],sessions=2)
opened([r2,w(a2,_prev=[["p6:/a","r2-0-1","r2-0-1"]]),sy,vs,pv,se],"rule 4 document 4")
# no later committed value behind a value of the previous document
opened([root,a2,sy,vs,pv,se],"rule 4 document 1")
opened([r2,w(a2,p__p={"r1-0-1":5}),sy,vs,pv,se],"rule 4 document 1")
# a previous document that nobody lists
opened([r2,w(a2,_prev=None),sy,vs,pv,se],[w(r2,_lastRev="r2-0-1",_sweepRev="r2-0-1",_modCount=12),w(a2,_prev=None),sy,vs,pv,w(se,_modCount=13,_sessions=2)])
# a listed previous document that is gone
opened([r2,a2,sy,vs,se],[w(r2,_lastRev="r2-0-1",_sweepRev="r2-0-1",_modCount=12),a2,sy,vs,w(se,_modCount=13,_sessions=2)])
# checkpoints, readers and collisions go
opened([w(root,_collisions={"r3-0-1":["r2-0-1","/a/p"]}),a,sy,vs,w(se,checkpoints={"c":["r1-0-1","r0-0-1"]},readers={"0":["r1-0-1","r0-0-1"]})],op)
open('stdin','w').write('\n'.join(ins)+'\n')
open('stdout','w').write('\n'.join(outs)+'\n')
print(len(ins),len(outs))
