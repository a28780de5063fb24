%PAD	; adds R to L, and spaces up to column 30
	S L=L_"  "_R_$J("",30-$L(L)-2-$L(R))
	Q
