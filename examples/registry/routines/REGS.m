REGS	; search: each fills HIT(id) and gives how many there are
	Q
	;
BYNAME(PART,HIT)	; patients whose last names begin so
	N L,F,ID
	K HIT
	S PART=$$NAME^REGU(PART),L=PART
	I L'="",$D(^REG("B",L)) D FIRSTS(L,.HIT)
	F  S L=$O(^REG("B",L)) Q:L=""!($E(L,1,$L(PART))'=PART)  D FIRSTS(L,.HIT)
	Q $$COUNT(.HIT)
FIRSTS(L,HIT)	; all patients of a last name
	N F,ID
	S F="" F  S F=$O(^REG("B",L,F)) Q:F=""  S ID="" F  S ID=$O(^REG("B",L,F,ID)) Q:ID=""  S HIT(ID)=""
	Q
	;
BYSOUND(NAME,HIT)	; patients whose last names sound so
	N ID,KEY
	K HIT
	S KEY=$$SOUND^REGU(NAME),ID=""
	F  S ID=$O(^REG("S",KEY,ID)) Q:ID=""  S HIT(ID)=""
	Q $$COUNT(.HIT)
	;
WHERE(TEST,HIT)	; patients of whom a condition holds; it is an expression of ID
	N ID,OK
	K HIT
	S ID=0 F  S ID=$O(^REG(ID)) Q:'ID  X "S OK="_TEST I OK S HIT(ID)=""
	Q $$COUNT(.HIT)
	;
COUNT(HIT)	; how many there are
	N I,N
	S I="" F N=0:1 S I=$O(HIT(I)) Q:I=""
	Q N
	;
BOTH(A,B)	; leaves in A what is in B too
	N I
	S I="" F  S I=$O(A(I)) Q:I=""  K:'$D(B(I)) A(I)
	Q
