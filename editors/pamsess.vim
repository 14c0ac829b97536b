" Signs of contracts in .rt and .antt files: \to gives an arrow, \lam a lambda (editors/README.md has all).
" Put `source PATH/editors/pamsess.vim` into ~/.vimrc.

augroup pamsess
  autocmd!
  autocmd BufNewFile,BufRead *.rt setlocal filetype=rust textwidth=100 shiftwidth=4 expandtab
  autocmd BufNewFile,BufRead *.antt setlocal textwidth=100 shiftwidth=4 expandtab commentstring=--\ %s
  autocmd BufNewFile,BufRead *.rt,*.antt call s:Signs()
augroup END

function! s:Signs()
  inoremap <buffer> \to →
  inoremap <buffer> \lam λ
  inoremap <buffer> \== ≡
  inoremap <buffer> \!= ≢
  inoremap <buffer> \N ℕ
  inoremap <buffer> \:: ∷
  inoremap <buffer> \<lt>= ≤
  inoremap <buffer> \x ×
  inoremap <buffer> \u+ ⊎
  inoremap <buffer> \iff ↔
  inoremap <buffer> \o ◌
  inoremap <buffer> \[[ ⟦
  inoremap <buffer> \]] ⟧
  inoremap <buffer> \<lt><lt> «
  inoremap <buffer> \>> »
  inoremap <buffer> \McL 𝓛
  inoremap <buffer> \tran ∙
  inoremap <buffer> \mapsto ↦
  inoremap <buffer> \from ←
  inoremap <buffer> \bot ⊥
  inoremap <buffer> \top ⊤
  inoremap <buffer> \not ¬
  inoremap <buffer> \_2 ₂
endfunction
