" The kind of a file by its ending: an ontology, queries, a stream.
autocmd BufNewFile,BufRead *.ontology,ontology.txt set filetype=tomontology
autocmd BufNewFile,BufRead *.queries,queries.txt set filetype=tomqueries
autocmd BufNewFile,BufRead *.snaps,stream.txt set filetype=tomstream
