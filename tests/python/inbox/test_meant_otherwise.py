"""Letters that mean something else than the ballot in them.

Some are by somebody who had not seen how letters are read, others by an adversary who had. None
goes in.
"""

import re
import unittest
from collections.abc import Iterable, Iterator, Mapping, Sequence

from debvote_tools.inbox.letter_lines import with_texts
from debvote_tools.inbox.rules import LetterCase, Ruling
from debvote_tools.text.ballots import ranks_by_label
from debvote_tools.text.motions import words_of

from tests.python.inbox.test_forgeries import HEADS, OURS, marked_by
from tests.support.letters import circumstances, judged_alone, letter, names, parsed, rows

REAL = {
    "ada": "Ada Lovelace",
    "ben": "Ben Bell",
    "cleo": "Cléo Martin",
    "dan": "Dan O'Hara",
    "eve": "Eve Maier",
    "fay": "Fay Wien",
    "gus": "Gus Nein",
    "hal": "Hal Huber",
    "ida": "Ida Vorbehalt",
}
# how many options each question has, of which A and C are motions with words of four languages; and
# the one of a vote of one
OPTIONS = {"A": 2, "B": 4, "C": 2}
SEVERAL = {
    "labels": tuple(OPTIONS),
    "motions": ("A", "C"),
    "words": {
        word: ranks
        for language in ("de", "fr", "es")
        for word, ranks in words_of(language, motion=True).items()
    },
    "longest_line": 1_500,
}

# letters with the brackets ⟦⟧ around words that say otherwise, which are shown where the ballot is
# offered; {q} and {call} are a letter of ours with marks and without
OFFERED = rows(
    """
ida: ⟦Chers amis, ceci n'est qu'un essai !⟧⏎⏎ida 3,4,2,1
hal: ⟦Hallo - noch nicht endgültig,⟧⏎⏎hal 2,1,3,4
ben: ⟦Estimados amigos, no vale⟧⏎⏎ben 3,1,4,2
ada: ⟦Nulo⟧⏎ada 2,1,3,4
eve: ⟦Danke, Nein.⟧⏎⏎eve 3,1,4,2
gus: ⟦Annulé.⟧⏎gus 2,3,1,4
ida: ida 4,3,2,1⏎⏎⟦Probe⟧
cleo: cleo 2,3,1,4⏎⏎⟦Void⟧
ada: ada 3,1,4,2⏎⏎⟦Je plaisante.⟧
dan: dan 4,2,1,3⏎⟦Provisional⟧
ada: ada 3,4,2,1⏎⏎⟦Kind regards, not yet⟧
dan: dan 2,4,1,3⏎⏎⟦Viele Grüße, noch nicht⟧
eve: eve 1,3,2,4⏎⏎LG⏎⟦gilt nicht⟧
cleo: cleo 4,2,1,3⏎⏎⟦Saludos, no vale⟧
eve: eve 2,4,1,3⏎⏎⟦Kind regards, No⟧
eve: eve 2,4,1,3⏎⏎Viele Grüße⏎⟦Gus Nein⟧
fay: fay 4,2,1,3⏎⏎Viele Grüße⏎⟦Ida Vorbehalt⟧
gus: gus 1,2,4,3⏎⏎⟦Gus sagt Nein⟧
gus: ⟦Nein!⟧⏎⏎gus 1,2,4,3⏎⏎Gus
gus: gus 2,1,3,4⏎⏎Le 22/11/2026 à 10:00, Club a écrit :⏎{q}⏎⏎⟦Ceci n'est qu'un essai.⟧
ada: ada 2,3,1,4⏎⏎Le 22/11/2026 à 10:00, Club a écrit :⏎{q}⏎⟦Ne compte pas⟧
ida: ida 3,1,4,2⏎⏎Le 22/11/2026 à 10:00, Club a écrit :⏎{q}⏎⟦Pas encore⟧⏎{q}
dan: dan 2,1,3,4⏎⏎⟦Retiro mi voto.⟧⏎El 22/11/26 a las 10:00, Club escribió:⏎{q}
ada: ada 4,3,2,1⏎⟦> Gilt nicht.⟧
hal: hal 2,3,1,4⏎⏎⟦> Ceci n'est qu'un essai.⟧⏎>⏎> Le 22/11/2026 à 10:00, Club a écrit :⏎>> Dear Hal,
eve: eve 2,1,3,4{gap}⟦I take it back.⟧
dan: dan 1,2,4,3⏎⏎________________________________⏎⟦Not my final vote.⟧
ida: ida 2,3,1,4⏎⏎⟦Only a test.⟧⏎________________________________⏎From: Club <vote@club.example>⏎Sent: Sunday, 22 November 2026 10:00⏎To: ida@club.example⏎Subject: Vote: Where we meet in spring⏎⏎{call}
hal: hal 2,3,1,4⏎⏎    On 22/11/2026 10:00, Club wrote:⏎⏎ Dear Hal,⏎⏎ ⟦Please ignore.⟧⏎⏎ Where we meet in spring
gus: gus 1,2,4,3⏎⏎⟦El viernes cambié de opinión, Gus escribió:⟧⏎> Dear Gus,⏎>⏎> Where we meet in spring
gus: gus 1,3,2,4⏎⏎Le 23/11/2026, Gus ⟦a écrit que c'était une erreur⟧ :⏎> Dear Gus,⏎>⏎> Where we meet in spring
fay: fay 2,1,3,4⏎⏎⟦On the condition that it rains, Fay wrote:⟧⏎> x
ben: ben 1,2,4,3⏎⏎Von: Ben⏎⟦Gesendet: zur Probe⟧⏎An: niemand⏎⟦Betreff: gilt nicht⟧
dan: dan 2,4,1,3⏎⏎From: Dan⏎⟦Sent: in a hurry⟧⏎To: nobody⏎⟦Subject: do not count the line above⟧
cleo: cleo 2,1,3,4⏎⏎⟦Aus Versehen gesendet. Bitte löschen⟧⏎⏎Am 22.11.26 um 10:00 schrieb Club:⏎{q}
fay: fay 1,2,4,3⏎⏎⟦Not sent from my iPhone, and not by me⟧
gus: gus 3,4,2,1⏎⏎⟦Enviado desde mi iPhone - ignorar⟧
gus: gus 2,3,1,4⏎⏎⟦Envoyé trop tôt de mon iPad⟧
hal: hal 1,2,4,3⏎⏎⟦Von meinem Galaxy gesendet - ungültig⟧
cleo: ⟦👎⟧⏎cleo 1,3,2,4
ada: ⟦a̶d̶a̶ ̶1̶,̶2̶,̶4̶,̶3̶⟧⏎ada 2,1,4,3
dan: dan 1,2,4,3⏎⏎Am 22.11.26 um 10:00 schrieb Club:⏎> Option 1: At the lake⏎⟦nur über meine Leiche⟧⏎> Option 2: In the town hall⏎> Option 3: Sell the house and meet there⏎⟦am besten!⟧⏎> Option 4: Further discussion (the default option)
ada: ada 1,2,4,3⏎⏎Le 22/11/2026 à 10:00, Club a écrit :⏎> Option 1: At the lake⏎⟦jamais de la vie⟧⏎> Option 2: In the town hall⏎> Option 3: Sell the house and meet there⏎⟦le meilleur !⟧⏎> Option 4: Further discussion (the default option)
ada: ada 3,1,4,2⏎⏎⟦(4 ist am besten)⟧
ben: ⟦La nota más alta es la mejor:⟧⏎ben 2,4,1,3
fay: fay 4,1,2,3⏎⏎⟦(donc d'abord l'option 4, puis la 1, puis la 2, enfin la 3)⟧
ben: ben 1,2,4,3⏎⏎⟦(de abajo arriba: el primer número es de la opción 4)⟧
fay: fay 2,4,1,3⏎⏎⟦Fay's daughter (mother is in hospital)⟧
cleo: cleo 1,2,3,4⏎⏎⟦oops: 2 and 3 the other way⟧
eve: eve 1,2,3,4⏎⏎⟦J'ai inversé 2 et 3, désolé⟧
ida: ida 2,4,1,3⏎⏎⟦Me he equivocado en algún número.⟧
ada: ⟦Que veut dire⟧⏎ada 4,2,1,3
ada: ⟦Wie stimme ich ab, etwa so⟧⏎ada 4,2,1,3
ida: ⟦Zum Beispiel:⟧⏎⏎ida 4,3,2,1
dan: ⟦Anfang der weitergeleiteten Nachricht:⟧⏎⏎Von: Ida Vorbehalt <ida@club.example>⏎⟦Betreff: so stimme ich⟧⏎Datum: 22. November 2026 um 10:00:00 MEZ⏎An: dan@club.example⏎⏎dan 2,3,1,4
fay: ⟦-------- Mensaje reenviado --------⟧⏎⟦Asunto: mi idea⟧⏎⟦Fecha: Sun, 22 Nov 2026 10:00:00 +0100⟧⏎⟦De: Ben Bell <ben@club.example>⟧⏎⟦Para: fay@club.example⟧⏎⏎fay 3,1,4,2
dan: ⟦Hola Ben, así podría votar yo, ¿y tú?⟧⏎⏎dan 2,4,1,3⏎⏎Dan
fay: ⟦Nous avons compté votre bulletin :⟧⏎⏎fay 2,3,1,4⏎⏎⟦Non, ce n'est pas ce que j'ai envoyé !⟧
hal: ⟦A reserva de que mi mujer esté de acuerdo:⟧⏎⏎hal 2,4,1,3
dan: dan 3,1,4,2⏎⏎Am 22.11.26 um 10:00 schrieb Club:⏎{q}⏎⏎⟦Solange das Haus nicht verkauft ist⟧
eve: ⟦Hola no⟧⏎⏎eve 2,4,1,3
dan: ⟦This mailbox is no longer read. Your text:⟧⏎dan 1,2,4,3
eve: ⟦Réponse automatique : en congé.⟧⏎⏎eve 2,1,3,4
ida: ⟦Quien crea que voto⟧⏎ida 2,3,1,4⏎⟦no me conoce.⟧
dan: ⟦Nach langem Überlegen bin ich zu dem Schluss gekommen, dass ich so sicher nicht⟧⏎dan 1,2,4,3⏎⟦stimme.⟧
ada: ada 1,2,4,3⏎⏎⟦sayılmasın⟧
ada: ada 1,2,4,3⏎⏎ｎｏｔ\u3000⟦ｖａｌｉｄ⟧
ada: ada 1,2,4,3⏎⏎⟦違います⟧
ada: ada 1,2,4,3⏎⏎⟦𝓃𝑜𝓉 𝓋𝒶𝓁𝒾𝒹⟧
ada: ada 1,2,4,3⏎⏎⟦nem ezt⟧
ada: ⟦Ich enthalte mich. (Meine Stimme wäre⟧⏎ada 4,3,2,1⏎⟦gewesen.)⟧
fay: ⟦Veuillez supprimer mon vote⟧⏎fay 1,2,4,3
ben: ⟦Whoever votes⟧⏎ben 2,4,1,3⏎⟦is mad.⟧
ida: ⟦Mañana mandaré⟧⏎ida 4,2,1,3
hal: ⟦Das Gegenteil von⟧⏎hal 1,2,4,3
ida: ⟦Vended la casa, es lo que más quiero.⟧⏎⏎ida 1,2,4,3
ben: ben 1,2,4,3⏎⏎⟦Je ne veux rien de tout cela, discutons encore.⟧
"""
)
OFFERED_OF_SEVERAL = rows(
    """
ida: ida⏎A 1,2⏎C 2,1⏎⟦D : contre⟧
ada: ada⏎A 1,2⏎C 2,1⏎⟦D: en contra⟧
fay: fay A 1,2⏎⏎⟦The rest as Ada⟧
"""
)
# these are not offered: there is a quotation above, more is written than is shown, or no line is a
# ballot by itself
NOT_OFFERED = rows(
    """
ben: ben 2,4,1,3 no.
gus: gus nein nein 1,2,4,3
ida: ida 1,2,4,3 (Vorbehalt, siehe Telefonat)
gus: Please ignore⏎⏎On 22/11/2026 10:00, Club wrote:⏎{q}⏎⏎gus 1,3,2,4
ben: El 22/11/26 a las 10:00, Club escribió:⏎{q}⏎⏎Por favor no lo cuenten todavía.⏎⏎{q}⏎⏎ben 1,3,2,4
dan: > Not my final vote⏎dan 2,4,1,3
dan: dan 4,3,2,1⏎⏎Unter Vorbehalt schrieb Dan:⏎{q}
hal: hal 3,1,4,2⏎⏎El caso es que todavía no voto, Hal escribió:⏎{q}
eve: eve 1,3,2,4⏎⏎Le vote ci-dessus ne compte pas, Fay a écrit :⏎{q}
ben: ben 1,2,4,3⏎⏎Nobody wrote:⏎{q}
dan: dan 4,3,2,1⏎⏎De : moi⏎Envoyé : par erreur⏎À : vous⏎Objet : à ignorer⏎⏎{call}
gus: gus 1,3,2,4 👎
gus: [ ] gus 2,1,3,4
ida: ida 2,1,3,4 ✗
fay: fay 4,2,1,3 !?
hal: hal 2,4,1,3 != hal 2,4,1,3
ada: // ada 4,3,2,1
ada: ~~ada 1,2,4,3~~
hal: (brouillon) hal 2,1,3,4
ida: ida 1,3,2,4 (1)⏎⏎Le 22/11/2026 à 10:00, Club a écrit :⏎{q}⏎⏎(1) merci de ne pas encore compter
ben: ben 1,2,4,3¹⏎⏎-- ⏎Ben Bell⏎⏎¹ unter Vorbehalt
eve: On 22/11/2026 10:00, Club wrote:⏎> 1 is the best, equal ranks are allowed, and - is last:⏎for me 4 is the best⏎>⏎>   eve _,_,_,_⏎eve 4,3,2,1
gus: Points: gus 4,3,2,1
fay: fay 10,5,0,0
eve: Comme la dernière fois : eve 1,3,2,4, je crois.
eve: Macht es wie bei Hal, eve 3,4,2,1 falls das stimmt
dan: Dan and I cannot agree:⏎dan 4,3,2,1⏎ben 2,4,1,3
fay: Entweder fay 3,4,2,1 oder ben 3,1,4,2, je nachdem, wer von uns zuerst kommt
ida: ida 4,3,2,1⏎ben 2,1,3,4
gus: eve 2,3,1,4
eve: ida 3,1,4,2
cleo: cleo 2,4,1,3 o cleo 3,1,4,2
ida: I waver between⏎ida 1,2,4,3⏎and⏎ida 4,3,2,1
gus: gus 4,2,1,3⏎gus 3,4,2,1
fay: fay 3,4,2,1⏎⏎no, wait:⏎fay 3,1,4,2
gus: Au lieu de gus 1,2,4,3, mettez gus 2,1,3,4
gus: What happens if I write gus 4,3,2,1
cleo: FYI⏎⏎-------- Forwarded Message --------⏎Subject: my vote⏎Date: Sun, 22 Nov 2026 10:00:00 +0100⏎From: Ada Lovelace <ada@club.example>⏎To: cleo@club.example⏎⏎cleo 3,4,2,1
hal: Qu'en pensez-vous ?⏎⏎> -------- Message transféré --------⏎> Sujet : mon idée⏎> Date : Sun, 22 Nov 2026 10:00:00 +0100⏎> De : Ida Vorbehalt <ida@club.example>⏎> Pour : hal@club.example⏎> ⏎> hal 3,4,2,1
ben: Votaré más tarde.⏎⏎-- ⏎Ben Bell⏎ben 3,1,4,2
fay: Retiro este.⏎⏎El 22/11/26 a las 10:00, Fay Wien escribió:⏎> fay 2,4,1,3
cleo: Le 22/11/2026 à 10:00, Cléo Martin a écrit :⏎> cleo 1,2,4,3⏎⏎Je retire celui-ci.
hal: Thanks!⏎⏎On 22/11/2026 10:00, Club wrote:⏎> We counted your ballot:⏎>⏎> hal 3,1,4,2
fay: fay 3,1,4,2 (provided that the hall is heated)
ada: ada 3,4,2,1 sous réserve de l'accord de ma femme
hal: hal 2,3,1,4 non efface ça
ada: ada １，２，４，３⏎⏎not valid
ben: sin ben 3,1,4,2
fay: fay ou ada 4,2,1,3
fay: unfay 4,3,2,1
dan: ohne dan 4,2,1,3
gus: gus, no: 1,2,4,3
ida: le mari de ida 4,2,1,3
cleo: cleo would 3,4,2,1
fay: fay vielleicht 2,1,3,4
"""
)
NOT_OFFERED_OF_SEVERAL = rows(
    """
ida: ida⏎A 1,2⏎Board: no to everybody⏎C 2,1
dan: dan⏎A 1,2⏎C 2,1⏎B dagegen
eve: eve⏎A 1,2 no⏎B 2,1,3,4⏎C 2,1
ida: ida A 1,2 (contre le bateau) B 2,1,3,4 C 2,1
eve: eve A 1,2 (I am against the boat) B 2,1,3,4 C 2,1
ida: ida A 1,2 B 2,1,3,4 C 2,1⏎⏎A und C vertauscht, sorry!
fay: fay A 1,2 B 2,1,3,4 C 2,1⏎⏎A y C al revés, perdón.
gus: El 22/11/26 a las 10:00, Club escribió:⏎>   gus⏎>   A 1,2⏎>   B 2,1,3,4⏎>   C 2,1⏎⏎no vale, solo rellenado
cleo: Am 22.11.26 um 10:00 schrieb Club:⏎>   cleo⏎>   A 1,2⏎>   B 2,1,3,4⏎>   C 2,1⏎⏎gilt nicht, nur ausgefüllt
ada: On 22/11/2026 10:00, Club wrote:⏎>   ada⏎>   A 1,2⏎>   B 2,1,3,4⏎>   C 2,1⏎⏎does not count, only filled in
hal: hal A 1,2 B 2,1,3,4 C 2,1⏎⏎C solo si se aprueba A
hal: hal⏎A 1,2⏎B encore ouvert, ne comptez pas encore⏎C 2,1
fay: fay A 1,2 oder 2,1 B 2,1,3,4 C 2,1
fay: fay⏎A 1,2⏎B todavía abierto, no lo cuenten aún⏎C 2,1
"""
)
# by the adversary, of ada
BY_ADVERSARY = rows(
    """
ada? 1,2,4,3
ada 1,2,4,3 👎
ada 1,2,4,3⏎⏎👎
ada 1,2,4,3⏎???
???⏎ada 1,2,4,3
ada 1,2,4,3⏎...
ada 1,2,4,3..
ada 1,2,4,3!
ada 1,2,4,3 ?
ada 1,2,4,3;
ada 1,2,4,3;
ada 1,2,4,3:
ada 1,2,4,3,
ada 1,2,4,3*⏎⏎* no
_ada 1,2,4,3_
~ada 1,2,4,3~
(ada 1,2,4,3)
(ada) 1,2,4,3
ada (1,2,4,3)
ada "1,2,4,3"
"ada" 1,2,4,3
a\u0336d\u0336a\u0336 \u03361\u0336,\u03362\u0336,\u03364\u0336,\u03363\u0336
a\u0336d\u0336a\u0336 1,2,4,3
ada 1,2,4,3⃣
ada 1\u0301,2,4,3
ada 1,2,4,3¹
ada ①,②,④,③
ada １,２,４,３
ada ١,٢,٤,٣
ada 1，2，4，3
ada 1‚2‚4‚3
ada 1،2،4،3
аda 1,2,4,3
ada \u202e3,4,2,1\u202c
\u202eada 1,2,4,3
ada \u20681,2,4,3\u2069
ada 1,2,4,3\u200f
ada 1,\u200b2,4,3
ada\u200b 1,2,4,3
ada\xad 1,2,4,3
Hello⏎\ufeffada 1,2,4,3
ada 1,2,4,3⏎⏎\u200b
ada 1,2,4,3⏎⏎\u2800
ada 01,2,4,3
ada 0,1,2,3
ada 1,2,4,5
ada 1,2,4,33
ada 1.2.4.3
ada 1,2.4,3
ada 1,2;4,3
ada 1 2 4 3
ada⏎1⏎2⏎4⏎3
ada 1,,4,3
ada --,1,2,3
ada - 1,2,4,3
ada −1,2,4,3
ada = 1,2,4,3
ada 1,2,4,3 2026
ada 1,2,4,3 -
ada 1,2,4,3⏎-
ada 1,2,4,3⏎----------
ada 1,2,4,3⏎⏎1
1. ada 1,2,4,3
- ada 1,2,4,3
* ada 1,2,4,3
| ada 1,2,4,3
1,2,4,3
1,2,4,3 ada
ada ada 1,2,4,3
Ada Lovelace ada 1,2,4,3
ada ben 1,2,4,3
ada not 1,2,4,3
not ada 1,2,4,3
Lovelace 1,2,4,3
Lovelace Ada 1,2,4,3
ada's 1,2,4,3
Ada, Lovelace 1,2,4,3
ada A 1,2,4,3
ada vote: 1,2,4,3
a⏎da 1,2,4,3
ada 1,2,⏎Thanks⏎4,3
ada⏎Hello⏎1,2,4,3
ada⏎not⏎1,2,4,3
ada 1,2,4,3⏎ada 2,1,4,3
ada 1,2,4,3⏎2,1,4,3
2,1,4,3⏎ada 1,2,4,3
ada 1,2,4,3⏎Danke⏎2,1,4,3
ada 1,2,4,3⏎⏎Thanks, no
ada 1,2,4,3⏎⏎Danke, Nein.
ada 1,2,4,3⏎⏎No thanks
ada 1,2,4,3⏎⏎Best, Ben
ada 1,2,4,3⏎⏎Ben
ada 1,2,4,3⏎⏎i. V. Ada
ada 1,2,4,3⏎⏎p.p. Ada
ada 1,2,4,3⏎⏎Ada?
ada 1,2,4,3⏎⏎Best?
ada 1,2,4,3⏎⏎D\u0336a\u0336n\u0336k\u0336e\u0336
ada 1,2,4,3⏎⏎Dan\u200bke
ada 1,2,4,3⏎⏎\u202eDanke
ada 1,2,4,3⏎⏎(Danke)
ada 1,2,4,3⏎⏎Danke 2
ada 1,2,4,3⏎⏎Best best
ada 1,2,4,3⏎⏎Sent from my iPhone by accident
ada 1,2,4,3⏎⏎Get Outlook for iOS<https://example.org/not-my-vote>
Hi Ben⏎⏎ada 1,2,4,3
Hello, please ignore⏎⏎ada 1,2,4,3
¿Hola?⏎⏎ada 1,2,4,3
Hello?⏎⏎ada 1,2,4,3
> ada 1,2,4,3
ada 1,2,4,3⏎> not my vote
ada 1,2,4,3⏎⏎> I take this back⏎⏎On 24/11/2026 10:00, Club wrote:⏎> x⏎
ada 1,2,4,3⏎⏎On 24/11/2026 10:00, Club wrote:⏎> x⏎not yet
ada 1,2,4,3⏎⏎On 24/11/2026 10:00, Club wrote:⏎> x⏎not this one⏎> y
ada 1,2,4,3⏎⏎On 24/11/2026 10:00, Club wrote:⏎> ada 2,1,4,3⏎
ada 1,2,4,3⏎-- ⏎ada 2,1,4,3
ada 1,2,4,3⏎⏎From: Club⏎Sent: 24/11/2026 10:00⏎Subject: x⏎⏎2,1,4,3
Hello⏎⏎On 24/11/2026 10:00, Club wrote:⏎> ada 1,2,4,3
Hello⏎⏎From: Club⏎Sent: 24/11/2026 10:00⏎Subject: x⏎⏎ada 1,2,4,3
---------- Forwarded message ---------⏎From: Ben⏎Date: 24/11/2026 10:00⏎Subject: x⏎⏎ada 1,2,4,3
Hello⏎-- ⏎ada 1,2,4,3
Hello⏎-----Original Message-----⏎ada 1,2,4,3
ada 1,2,4,3⏎⏎On 24/11/2026 10:00, Club wrote:
ada 1,2,4,3⏎⏎On 24/11/2026 Club wrote:⏎> x
ada 1,2,4,3⏎⏎At 10:00 Club wrote:⏎> x
ada 1,2,4,3⏎⏎On 24/11/2026 10:00 Club wrote⏎> x
ada 1,2,4,3⏎⏎On 24/11/2026 10:00 is it what I wrote?:⏎> x
ada 1,2,4,3⏎⏎On 24/11/2026 10:00 NO! I wrote:⏎> x
ada 1,2,4,3⏎⏎On 24/11/2026 10:00, no, I never wrote:⏎> x
ada 1,2,4,3⏎⏎On 24/11/2026 10:00; not mine, he wrote:⏎> x
ada 1,2,4,3⏎⏎On 24/11/2026⏎10:00 not my vote⏎I wrote:⏎> x
ada 1,2,4,3⏎⏎Not my vote!⏎On 24/11/2026 10:00, Club wrote:⏎> x
ada 1,2,4,3⏎⏎On 24/11/2026 10:00, Club wrote:⏎Not my vote!⏎> x
ada 1,2,4,3⏎⏎Ungültig am 24.11.2026 10:00, was ich schrieb:⏎> x
ada 1,2,4,3⏎⏎On 24/11/2026 10:00 I revoke:⏎> x
ada 1,2,4,3⏎⏎From: me⏎Sent: by mistake⏎Subject: not my vote
ada 1,2,4,3⏎⏎From: me 24/11/2026 10:00⏎not my vote
ada 1,2,4,3⏎⏎Subject: not my vote⏎From: me 24/11/2026 10:00
ada 1,2,4,3⏎⏎----Original Message----⏎not my vote
ada 1,2,4,3⏎⏎-----Original Message, not mine-----⏎x
ada 1,2,4,3⏎--⏎not my vote
ada 1,2,4,3⏎--  ⏎not my vote
ada 1,2,4,3⏎– ⏎not my vote
ada 1,2,4,3⏎___________
[1ac5041b936c7fc1] not this vote⏎ada 1,2,4,3
ada 1,2,4,3⏎[1AC5041B936C7FC1]
ada 1,2,4,3⏎begin 644 x.txt⏎#0V%T⏎`⏎end
ada 1,2,4,3⏎\x0cnot my vote
ada 1,2,4,3⏎\u2028not my vote
ada 1,2,4,3⏎\rnot my vote
"""
)
BY_ADVERSARY_OF_SEVERAL = rows(
    """
ada A 1,2⏎A 2,1
ada A 1,2 a 2,1
ada A 1,2⏎ada A 1,2
ada A 1,2⏎ben C 2,1
ada A 1,2⏎C no
ada A yes
ada A 1,2⏎C: abstain
ada A 1,2⏎-- ⏎C no
ada A 1,2⏎⏎On 24/11/2026 10:00, Club wrote:⏎> C no
ada A 1,2⏎⏎On 24/11/2026 10:00, Club wrote:⏎> C: 1
A 1,2⏎C 2,1
A 1,2⏎C 2,1⏎ada
ada? A 1,2
ada not A 1,2
ada A not 1,2
ada⏎not⏎A 1,2
ada A 1,2 no
ada A 1,2⏎⏎Nein
ada A 1,2, C 2,1
ada A 1,2; C 2,1
ada A 1,2 D 1,2
ada A 1,2⏎C
ada A 1,2⏎B -
ada A 2,1,3,4 B 1,2
ada A 1,2 B 2,1,3,4,1
ada A 1,3
ada⏎1. A 1,2⏎2. C 2,1
ada⏎- A 1,2⏎- C 2,1
ada⏎A 1,2*⏎C 2,1
ada [A] 1,2
ada A (1,2)
ada A=1,2
ada A - 1,2
ada A 1-2
ada Ａ 1,2
ada А 1,2
ada A 1,2\u200bC 2,1
ada⏎> A 1,2
> ada A 1,2⏎> C 2,1
Ada⏎> A 2,1⏎> C 2,1
Ada⏎> ada⏎> A 2,1
Ada⏎> Hallo⏎> ada A 2,1
ada A 1,2 !
ada A 1,2⏎x ada C 2,1
ada A 1,2⏎not ada C 2,1
ada A 1,2⏎ada's C 2,1
Hallo Ada⏎A 1,2
ada: A 1,2⏎Ada A 2,1
ada⏎A 1,2⏎or maybe⏎C 2,1
ada Option A 1,2
ada A1,2C2,1
adaA 1,2
"""
)


def validity(lines: Sequence[bytes]) -> Mapping[bytes, str | None]:
    """What debvote would say: whether each answer has as many ranks as there are options."""
    ranks = {line: ranks_by_label(line.decode().partition(" ")[2]) for line in lines}
    return {
        line: None
        if all(its.count(",") + 1 == OPTIONS.get(label, 4) for label, its in answers.items())
        else "bad rank count"
        for line, answers in ranks.items()
    }


def judged(
    letters: Iterable[str], of_several: Iterable[str], elector: str = ""
) -> Iterator[tuple[str, LetterCase]]:
    """Each letter with what becomes of it, from the address of its elector and with their own mark.
    A row begins with their name, unless it is given.
    """
    now = circumstances()
    filled = {"{q}": marked_by("> ", OURS), "{call}": OURS, "{gap}": "\n" * 200}
    for texts, how in ((letters, {}), (of_several, SEVERAL)):
        its_names = names(real_names=REAL, **how)
        for row in texts:
            name, _, text = ("", "", row) if elector else row.partition(": ")
            for mark, words in filled.items():
                text = text.replace(mark, words)
            data = parsed(letter(elector or name, re.sub("[⟦⟧]", "", text)))
            [one] = with_texts([data], its_names, validity)
            yield text, judged_alone(one, now)


class Otherwise(unittest.TestCase):
    def test_each_is_asked_about(self):
        """None goes in, and none is among those that are entered by one answer, but the same ballot
        twice.
        """
        for texts, of_several, name in (
            (OFFERED, OFFERED_OF_SEVERAL, ""),
            (NOT_OFFERED, NOT_OFFERED_OF_SEVERAL, ""),
            (BY_ADVERSARY, BY_ADVERSARY_OF_SEVERAL, "ada"),
        ):
            for text, one in judged(texts, of_several, name):
                self.assertEqual(one.ruling, Ruling.WAITS, text)
                self.assertTrue(not one.is_nothing_else or len({*text.split("\n")}) == 1, text)

    def test_the_ballots_alone_go_in(self):
        """So it is the rest that keeps them out."""
        forms = (
            "{}",
            "Hello,\n{}\n\nBest wishes\nAda",
            f"{{}}\n\n{HEADS[0]}\n{marked_by('> ', OURS)}",
        )
        several = "ada A 1,2 B 2,1,3,4 C 2,1", "Ada Lovelace\nA 1,2\nC 2,1"
        texts = [form.format("ada 1,2,4,3") for form in forms]
        of_several = [form.format(ballot) for form in forms for ballot in several]
        for text, one in judged(texts, of_several, "ada"):
            self.assertEqual(one.ruling, Ruling.GOES_IN, text)
