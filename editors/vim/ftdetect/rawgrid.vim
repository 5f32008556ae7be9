" The texts of rawgrid are known by their suffix and by their first line with words, which begins with `grid`.
function! s:Detect(type) abort
    for line in getline(1, 500)
        if line =~# '^\s*\%(#\|$\)'
            continue
        endif
        if line =~# '^\s*grid\>'
            let &filetype = a:type
        endif
        return
    endfor
endfunction

autocmd BufRead,BufNewFile *.set,*.live call s:Detect('rawgrid-set')
autocmd BufRead,BufNewFile *.plan call s:Detect('rawgrid-plan')
autocmd BufRead,BufNewFile *.flow call s:Detect('rawgrid-flow')
autocmd BufRead,BufNewFile *.script if getline(1, '$')->match('^\s*script\s*$') >= 0 | setfiletype rawgrid-set | endif
autocmd BufRead,BufNewFile *.claim if getline(1, '$')->match('^\s*claim\s*\%(#.*\)\?$') >= 0 | setfiletype rawgrid-set | endif
