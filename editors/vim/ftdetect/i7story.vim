" Sources of i7story.
autocmd BufNewFile,BufRead *.i7 setfiletype i7story
