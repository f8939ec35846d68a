use Rattle·bench_open·proofs.proofs.Openings.{refused-first, refused-second, told-taken}
%%returns
let a = @args in
let f = @would-open in
rw (@not-opened .ensures)
(refused-first (a .kind0) (a .kind1) (a .arrived0 .now) (a .arrived1 .now) (a .text0 .now) (a .text1 .now)
(a .history .now) (f .result) _ _ (f .ensures) (@enum-told2 .given .1))
%%returns-2
let a = @args in
let f = @would-open in
let g = @would-open2 in
rw (@not-opened2 .ensures)
(refused-second (a .kind0) (a .kind1) (a .arrived0 .now) (a .arrived1 .now) (a .text0 .now) (a .text1 .now)
(a .history .now) (g .result) _ _
(told-taken (a .kind0) (a .arrived0 .now) (a .text0 .now) (a .history .now) (f .result) _ (f .ensures)
(@enum-told .given .1))
(g .ensures) (@enum-told4 .given .1))
%%open-both-requires
let a = @args in
let f = @would-open in
let g = @would-open2 in
(
  told-taken (a .kind0) (a .arrived0 .now) (a .text0 .now) (a .history .now) (f .result) _ (f .ensures)
  (@enum-told .given .1),
  told-taken (a .kind1) (a .arrived1 .now) (a .text1 .now) (a .history .now) (g .result) _ (g .ensures)
  (@enum-told3 .given .1),
)
