use Rattle·bench_open·proofs.proofs.Openings.{lengths-small, both-opened}
%%opened-requires
let a = @args in
let p = @«open» in
let q = @open2 in
lengths-small (a .kind0) (a .kind1) (a .arrived0 .now) (a .arrived1 .now) (a .text0 .now) (a .text1 .now)
(a .history .now) (@pre .0) (@pre .1) (p .result) (q .result) _ _ _ _ (p .ensures) (q .ensures)
%%returns
let a = @args in
let p = @«open» in
let q = @open2 in
rw (@opened .ensures)
(both-opened (a .kind0) (a .kind1) (a .arrived0 .now) (a .arrived1 .now) (a .text0 .now) (a .text1 .now)
(a .history .now) (@pre .0) (@pre .1) (p .result) (q .result) _ _ _ _ (p .ensures) (q .ensures))
