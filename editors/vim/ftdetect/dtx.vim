" vim takes *.dtx for documented TeX; a script of dtx begins with a NODE command, behind comments that begin with --
autocmd BufRead,BufNewFile *.dtx if get(getline(1, 200), match(getline(1, 200), '^\s*\%(--\)\@!\S'), '') =~? '^\s*NODE\s'
      \ | set filetype=dtx | endif
