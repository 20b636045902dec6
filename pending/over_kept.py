#!/usr/bin/env python3
"""over_kept.py CRATE [flags of rattle check]: checks CRATE over the libraries that rt ci kept (linked into V5HOME/rlibs), the others as sources.
over_kept.py --list CRATE: says which libraries below are kept."""
import sys, os, re, json, hashlib, importlib.machinery, importlib.util, types
KIT=os.path.dirname(os.popen("rt doc").read().strip()); HOME=os.path.abspath(os.environ["V5HOME"])
ROOT=os.environ.get("V5ROOT",f"{HOME}/main")
sys.path.insert(0,f"{KIT}/bin")
loader=importlib.machinery.SourceFileLoader("rtmod",f"{KIT}/bin/rt")
spec=importlib.util.spec_from_loader("rtmod",loader); rt=importlib.util.module_from_spec(spec); loader.exec_module(rt)
rtlib=rt.rtlib
args=sys.argv[1:]
only_list=args[0]=="--list"
if only_list: args=args[1:]
name,flags=args[0],args[1:]
out=os.dup(1); os.dup2(2,1)
os.chdir(ROOT)
rtlib.rtlib_quiet=True
made0=rtlib.Crate.__init__
rtlib.Crate=rt.Crate
rt.Crate.allowed=rt.handles_of(ROOT)
every=sorted(rtlib.crates_below(ROOT),key=lambda it: len(it.below()))
by={c.name:c for c in every}
c=by[name]
kept=rt.Kept([])
have={}
for d in c.below():
    if any(x.name not in have for x in d.below()):
        continue
    try: key=kept.key(d)
    except Exception as e: continue
    at=kept.place(d,False,key)
    if not os.path.isdir(at): continue
    made=json.load(open(f"{at}/made.json"))
    to=f"{HOME}/rlibs/{key[:16]}"
    if not os.path.exists(f"{to}/whole"):
        os.makedirs(to,exist_ok=True)
        for i,(p,s) in enumerate(made["files"]):
            t=f"{to}/{p}"; os.makedirs(os.path.dirname(t),exist_ok=True)
            if not os.path.exists(t): rt.link_or_copy(f"{at}/{i}",t)
        open(f"{to}/whole","w").close()
    have[d.name]=f"{to}/rlib/{d.name}.rlib"
    kept.rlibs[d.name]=hashlib.sha256(repr([(p,s) for p,s in made["files"]]).encode()).hexdigest()
os.dup2(out,1)
missing=[d.name for d in c.below() if d.name not in have]
print("dev: as sources:",*missing,flush=True)
if only_list: sys.exit()
words=["--crate-name",name,"src/lib.rt" if os.path.exists(f"{c.folder}/src/lib.rt") else "src/main.rt"]
for n in c.of_kit: words+=["--extern",f"{n}={KIT}/rlibs/{n}.rlib"]
words+=["-L",f"dependency={KIT}/rlibs"]
direct=[d.name for d in c.deps]
srcs=[d for d in c.below() if d.name in missing]
if srcs:
    more={"core"}|{k for d in srcs for k in d.of_kit}
    more-=set(c.of_kit)
    for k in sorted(more): words+=["--extern",f"{k}={KIT}/rlibs/{k}.rlib"]
named=set(direct)|{x.name for d in srcs for x in d.deps}
for n in have:
    if n in named: words+=["--extern",f"{n}={have[n]}"]
    words+=["-L",f"dependency={os.path.dirname(have[n])}"]
for d in srcs:
    uses=dict.fromkeys(["core",*d.of_kit,*[x.name for x in d.deps]])
    words+=["--lib",f"{d.name}:{','.join(uses)}={d.folder}/src/lib.rt"]
words+=["--antt-project",f"{KIT}/rattle/logic/antt-project.json","--logic-built",f"{KIT}/logic_built"]
if not any(f.startswith("--jobs") for f in flags): words+=["--jobs","1"]
if not any(f.startswith("--incremental") for f in flags):
    os.makedirs(f"{HOME}/inc2/{name}",exist_ok=True)
    words+=["--incremental",f"{HOME}/inc2/{name}"]
words+=["--links",f"{name}="]+flags
os.chdir(c.folder)
os.execv(f"{KIT}/bin/rattle",[f"{KIT}/bin/rattle","check"]+words)
