export RT_JOBS=1 OWN=/opt/rattle/on/$(uname -m) PROJECT=/opt/rattle/logic/antt-project.json
export RATTLE=$OWN/bin/rattle
