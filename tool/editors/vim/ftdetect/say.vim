" Terms and tests of Cuckooormolu.
autocmd BufRead,BufNewFile terms.say,tests.say,requests.say,*.say setfiletype say
