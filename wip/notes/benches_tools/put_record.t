use Rattle·bench_calls·proofs.proofs.Recording.{record-put}
%%returns
let a = @args in
let p = @pre in
let e₁ = @splice-in in
let e₂ = @splice-in2 in
let e₃ = @splice-in3 in
record-put (a .history .now) (a .removed .now) (a .added .now) (a .used) (a .at) (a .mine) (a .place) (p .0) (p .1) (p .2)
(e₁ .last .0) (e₂ .last .0) (e₃ .last .0) (e₁ .result) (e₂ .result) (e₁ .ensures) (e₂ .ensures) (e₃ .ensures .1)
