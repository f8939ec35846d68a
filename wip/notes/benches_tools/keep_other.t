use mathlib.Core.Path.{refl, sym, _∙_}
%%returns
((λ _. (refl, refl)), (λ n. absurd (n (sym (@wide .ensures .0) ∙ @if1 .taken))))
%%returns-2
((λ e. absurd (@if1 .left (@wide .ensures .0 ∙ e))), (λ _. (refl, @move-left .ensures)))
