" Models, messages and journals of Lundocsef: by the name *.lundocsef, or by a horizon or an open entry near the top.
autocmd BufRead,BufNewFile *.lundocsef setfiletype lundocsef
autocmd BufRead *.txt,*.journal if join(getline(1, 40), "\n") =~# '\v(^|\n)\s*(horizon\s+\d|0 open turns )' | set filetype=lundocsef | endif
