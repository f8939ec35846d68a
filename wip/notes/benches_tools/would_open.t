use mathlib.Core.Path.{sym, ap, _∙_}
use Rattle·ledger.specs.Page.{Outcome}
use Rattle·page.proofs.Openings.{long-arrived, long-text, long-history}
use Rattle·bench_open·proofs.proofs.Openings.{told}
%%returns
let a = @args in
@too-long .ensures
∙ sym
(ap (λ (o : Outcome). o .verdict)
(long-arrived (a .kind) (a .arrived .now) (a .text .now) (a .history .now)
(sym (@over-limit .ensures) ∙ @if1 .taken)))
%%returns-2
let a = @args in
@too-long2 .ensures
∙ sym
(ap (λ (o : Outcome). o .verdict)
(long-text (a .kind) (a .arrived .now) (a .text .now) (a .history .now) (sym (@over-limit .ensures) ∙ @if1 .left)
(sym (@over-limit2 .ensures) ∙ @if2 .taken)))
%%returns-3
let a = @args in
@too-long3 .ensures
∙ sym
(ap (λ (o : Outcome). o .verdict)
(long-history (a .kind) (a .arrived .now) (a .text .now) (a .history .now) (sym (@over-limit .ensures) ∙ @if1 .left)
(sym (@over-limit2 .ensures) ∙ @if2 .left) (sym (@over-limit3 .ensures) ∙ @if3 .taken)))
%%returns-4
let a = @args in
@in-room .ensures
∙ told (a .kind) (a .arrived .now) (a .text .now) (a .history .now) (sym (@over-limit .ensures) ∙ @if1 .left)
(sym (@over-limit2 .ensures) ∙ @if2 .left) (sym (@over-limit3 .ensures) ∙ @if3 .left) (@format .result)
(@format .ensures) (@read .result) _ (@read .ensures)
