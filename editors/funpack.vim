" Highlighting of theory files. Put it into ~/.vim/syntax and add to ~/.vimrc:  autocmd BufRead,BufNewFile *.hol setfiletype funpack
if exists("b:current_syntax")
  finish
endif
syntax keyword funpackCommand definition typedef lemma simp cong constructors size measure fun function
syntax keyword funpackWord and where proof end abs rep by if then else
syntax keyword funpackLine refl sym trans mk_comb ap ap_arg lam beta ext norm rewrite simp_eq assume disch undisch mp eq_mp antisym truth eqt
syntax keyword funpackLine eqt_elim eqf conj conj1 conj2 disj1 disj2 cases not_intro not_elim gen spec exists choose select inst inst_ty false
syntax match funpackTypeVariable /'\h[A-Za-z0-9_']*/
syntax match funpackNumber /\<\d\+\>/
syntax match funpackComment /#.*$/
syntax region funpackQuote start=/"/ end=/"/ contains=funpackTypeVariable,funpackNumber
syntax region funpackBraces start=/{/ end=/}/
highlight default link funpackCommand Keyword
highlight default link funpackWord Statement
highlight default link funpackLine Function
highlight default link funpackTypeVariable Type
highlight default link funpackNumber Number
highlight default link funpackComment Comment
highlight default link funpackQuote String
highlight default link funpackBraces String
let b:current_syntax = "funpack"
