//! All that explanations say, in each language.
//!
//! An entry is a text in every language: the macro takes no entry that lacks one, and a language that is added to [`Lang`] is
//! wanted in the match below, and so in each entry.

use super::Lang;

macro_rules! table {
    ($($name:ident($($argument:ident: $type:ty),*) { en: $en:literal, fr: $fr:literal })*) => {
        $(pub fn $name(lang: Lang, $($argument: $type),*) -> String {
            match lang {
                Lang::En => format!($en),
                Lang::Fr => format!($fr),
            }
        })*
    };
}

/// The cause of a refusal in few words, by its number.
pub fn cause(lang: Lang, number: u8) -> String {
    match number {
        1 => cause_1(lang),
        2 => cause_2(lang),
        3 => cause_3(lang),
        4 => cause_4(lang),
        6 => cause_6(lang),
        7 => cause_7(lang),
        8 => cause_8(lang),
        9 => cause_9(lang),
        10 => cause_10(lang),
        11 => cause_11(lang),
        12 => cause_12(lang),
        13 => cause_13(lang),
        14 => cause_14(lang),
        15 => cause_15(lang),
        16 => cause_16(lang),
        _ => cause_other(lang),
    }
}

/// A number of bytes.
pub fn bytes(lang: Lang, count: u32) -> String {
    let one = match lang {
        Lang::En => count == 1,
        Lang::Fr => count <= 1,
    };
    if one {
        one_byte(lang, count)
    } else {
        many_bytes(lang, count)
    }
}

/// A number of steps.
pub fn steps(lang: Lang, count: u32) -> String {
    if count == 1 {
        one_step(lang, count)
    } else {
        many_steps(lang, count)
    }
}

// What is said of every image.
table! {
    accepted(name: &str) { en: "{name}: accepted", fr: "{name} : acceptée" }
    refused(name: &str, number: u8, cause: &str) {
        en: "{name}: refused with {number}: {cause}",
        fr: "{name} : refusée, numéro {number} : {cause}"
    }
    limits_refused(number: u8, cause: &str) {
        en: "limits: refused with {number}: {cause}",
        fr: "limites : refusées, numéro {number} : {cause}"
    }
    instruction(bytes: &str, text: &str) { en: "Instruction: {bytes}  {text}", fr: "Instruction : {bytes}  {text}" }
    found(bytes: &str) { en: "Bytes: {bytes}", fr: "Octets : {bytes}" }
    place(address: u16, offset: usize, routine: &str, range: &str) {
        en: "Where: {address:04X}, offset {offset}, in {routine}, {range}",
        fr: "Lieu : {address:04X}, décalage {offset}, dans la {routine}, {range}"
    }
    why(sentence: &str) { en: "Why: {sentence}", fr: "Cause : {sentence}" }
    to_do(sentence: &str) { en: "To do: {sentence}", fr: "À faire : {sentence}" }
    code_around() { en: "The code around it:", fr: "Le code alentour :" }
    code_with_depths() {
        en: "The code around it, with the depth before each instruction:",
        fr: "Le code alentour, avec la profondeur avant chaque instruction :"
    }
    not_of_the_set() { en: "(not of the set)", fr: "(hors du jeu)" }
    cut_short() { en: "(cut short)", fr: "(incomplète)" }
    routine(number: usize, count: usize) { en: "routine {number} of {count}", fr: "routine {number} sur {count}" }
    main_routine(number: usize, count: usize) { en: "routine {number} of {count} (main)", fr: "routine {number} sur {count} (main)" }
    one_byte(count: u32) { en: "{count} byte", fr: "{count} octet" }
    many_bytes(count: u32) { en: "{count} bytes", fr: "{count} octets" }
}

// Causes in few words. The English ones are the library's own.
table! {
    cause_1() { en: "limits break a rule", fr: "les limites enfreignent une règle" }
    cause_2() { en: "under 8 bytes, or not SLU", fr: "moins de 8 octets, ou pas SLU" }
    cause_3() { en: "version neither 0001 nor 0002", fr: "version autre que 0001 et 0002" }
    cause_4() { en: "another layout rule is broken", fr: "une autre règle de structure est enfreinte" }
    cause_6() { en: "start not reached", fr: "début d'instruction jamais atteint" }
    cause_7() { en: "depths disagree", fr: "les profondeurs ne concordent pas" }
    cause_8() { en: "outside the set of the version", fr: "hors du jeu d'instructions de la version" }
    cause_9() { en: "the bytes end too soon", fr: "les octets s'arrêtent trop tôt" }
    cause_10() { en: "jump into an instruction", fr: "saut à l'intérieur d'une instruction" }
    cause_11() { en: "depth leaves 0 to 255, or RET above 0", fr: "la profondeur sort de 0 à 255, ou RET au-dessus de 0" }
    cause_12() { en: "store not allowed", fr: "écriture non permise" }
    cause_13() { en: "jump leaves its routine", fr: "saut hors de sa routine" }
    cause_14() { en: "call not to an earlier routine", fr: "appel qui ne vise pas une routine antérieure" }
    cause_15() { en: "falls off its routine", fr: "la routine se poursuit au-delà de sa fin" }
    cause_16() { en: "stack area below the reported need", fr: "zone de pile inférieure au besoin" }
    cause_other() { en: "a rule is broken", fr: "une règle est enfreinte" }
}

// 1: the limits.
table! {
    grant() { en: "the grant", fr: "la zone accordée" }
    second_grant() { en: "the second grant", fr: "la seconde zone accordée" }
    stack() { en: "the stack area", fr: "la zone de pile" }
    low_above_high(name: &str, low: u16, high: u16) {
        en: "{name} has its low end {low:04X} above its high end {high:04X}",
        fr: "{name} a sa borne basse {low:04X} au-dessus de sa borne haute {high:04X}"
    }
    above_memory(name: &str, area: &str, high: u16, most: u16) {
        en: "{name} {area} ends at {high:04X}, wanted {most:04X} at most",
        fr: "{name} {area} se termine à {high:04X}, attendu {most:04X} au plus"
    }
    stack_at_0(area: &str) {
        en: "the stack area {area} begins at 0000, wanted 0001 or above",
        fr: "la zone de pile {area} commence à 0000, attendu 0001 ou au-dessus"
    }
    areas_meet(one: &str, one_area: &str, other: &str, other_area: &str, common: &str) {
        en: "{one} {one_area} and {other} {other_area} have {common} in common; no address may be in two areas",
        fr: "{one} {one_area} et {other} {other_area} ont {common} en commun ; aucune adresse ne peut être dans deux zones"
    }
    mend_limits() {
        en: "correct the limits, which are the controller's; no image was looked at",
        fr: "corrigez les limites, qui sont celles du contrôleur ; aucune image n'a été examinée"
    }
}

// 2 to 4: the header.
table! {
    under_8_bytes(found: usize) {
        en: "bytes in the file: {found}, wanted 8 or more",
        fr: "octets dans le fichier : {found}, attendu 8 ou plus"
    }
    other_letters(found: &str, wanted: &str) {
        en: "offset 0 of the image: found {found}, wanted {wanted}, the letters SLU",
        fr: "décalage 0 de l'image : trouvé {found}, attendu {wanted}, les lettres SLU"
    }
    letters_after_limits(offset: usize) {
        en: "SLU stands at offset {offset}: this is what gatecheck reads, twelve bytes of limits and then the image",
        fr: "SLU se trouve au décalage {offset} : c'est ce que lit gatecheck, douze octets de limites puis l'image"
    }
    give_an_image() {
        en: "give an SLU image alone, which begins with these letters",
        fr: "donnez une image SLU seule, qui commence par ces lettres"
    }
    other_version(found: &str) {
        en: "offset 3 of the image: found {found}, wanted 00 01 or 00 02",
        fr: "décalage 3 de l'image : trouvé {found}, attendu 00 01 ou 00 02"
    }
    low_byte_first() {
        en: "the low byte of the version stands first, and the high byte should",
        fr: "l'octet de poids faible de la version vient en premier, alors que ce devrait être celui de poids fort"
    }
    mend_version() {
        en: "write 00 01 or 00 02; an image of a later version is for a later loader",
        fr: "écrivez 00 01 ou 00 02 ; une image d'une version ultérieure est destinée à un chargeur ultérieur"
    }
    low_base(base: u16) {
        en: "offset 5 of the image: base {base:04X}, wanted 8000 or above",
        fr: "décalage 5 de l'image : base {base:04X}, attendu 8000 ou au-dessus"
    }
    routine_count(count: u8) {
        en: "offset 7 of the image: number of routines {count}, wanted 1 to 32",
        fr: "décalage 7 de l'image : nombre de routines {count}, attendu de 1 à 32"
    }
    lengths_cut(end: usize, found: usize) {
        en: "the lengths of so many routines end at offset {end} of the image, and the file has {found} bytes",
        fr: "les longueurs d'autant de routines s'arrêtent au décalage {end} de l'image, et le fichier a {found} octets"
    }
    length_0(number: usize, offset: usize) {
        en: "offset {offset} of the image: the length of routine {number} is 0, wanted 1 or more",
        fr: "décalage {offset} de l'image : la longueur de la routine {number} est 0, attendu 1 ou plus"
    }
    long_code(sum: usize, most: usize) {
        en: "the lengths add up to {sum} bytes of code, wanted {most} at most",
        fr: "les longueurs font en tout {sum} octets de code, attendu {most} au plus"
    }
    code_past_ffff(base: u16, sum: usize, end: usize) {
        en: "base {base:04X} and the length of the code, {sum}, add up to {end:04X}, wanted 10000 at most",
        fr: "la base {base:04X} et la longueur du code, {sum}, font en tout {end:04X}, attendu 10000 au plus"
    }
    file_length(begins: usize, sum: usize, wanted: usize, found: usize) {
        en: "the file has {found} bytes, wanted {wanted}: {begins} of the header and {sum} of code by the lengths of the routines",
        fr: "le fichier a {found} octets, attendu {wanted} : {begins} d'en-tête et {sum} de code d'après les longueurs des routines"
    }
    mend_layout() {
        en: "make the number of routines, their lengths, the base and the length of the file agree",
        fr: "faites concorder le nombre de routines, leurs longueurs, la base et la longueur du fichier"
    }
}

// 8, 9 and 15: instructions that are none, or go past the end.
table! {
    outside(bytes: &str, version: u16) {
        en: "{bytes} is no instruction of the set of version {version:04X}",
        fr: "{bytes} n'est pas une instruction du jeu de la version {version:04X}"
    }
    take_of_the_set() {
        en: "take instructions of the gate set, which docs/GATE-SET.md lists",
        fr: "prenez des instructions du jeu, dont docs/GATE-SET.md donne la liste"
    }
    callr() {
        en: "this is CALLR, which the set of version 0002 leaves out: its distance breaks when tools move routines",
        fr: "c'est CALLR, que le jeu de la version 0002 exclut : sa distance devient fausse quand des outils déplacent les routines"
    }
    take_call(call: &str, bytes: &str) {
        en: "take {call} ({bytes}), which has a byte more, so count lengths and distances anew; or write version 0001",
        fr: "prenez {call} ({bytes}), qui a un octet de plus : recomptez longueurs et distances ; ou écrivez la version 0001"
    }
    take_any_call() {
        en: "take CALL with the address of the routine; or write version 0001",
        fr: "prenez CALL avec l'adresse de la routine ; ou écrivez la version 0001"
    }
    truncated(mnemonic: &str, length: usize, left: usize, missing: usize) {
        en: "this {mnemonic} has {length} bytes, of which the routine holds {left}: {missing} missing",
        fr: "ce {mnemonic} compte {length} octets, et la routine n'en contient que {left} : il en manque {missing}"
    }
    lone_pre_code(byte: u8) {
        en: "after the pre-code {byte:02X} the routine ends before an op-code: 1 byte missing, or more",
        fr: "après le préfixe {byte:02X} la routine s'arrête avant tout code opération : il manque 1 octet ou plus"
    }
    add_bytes(number: usize, length: usize, offset: usize) {
        en: "add what is missing, or correct the length of routine {number}, now {length}, at offset {offset} of the image",
        fr: "ajoutez ce qui manque, ou corrigez la longueur de la routine {number}, à présent {length}, au décalage {offset} de l'image"
    }
    falls_off(next: &str) {
        en: "the last instruction of the routine goes on to {next}, where the routine has no more code; RET and JRA alone do not go on",
        fr: "la dernière instruction de la routine mène à {next}, où la routine n'a plus de code ; seuls RET et JRA ne mènent pas à l'adresse suivante"
    }
    end_by_ret(number: usize, length: usize, offset: usize) {
        en: "end the routine by RET (81) or JRA; the length of routine {number}, now {length}, is at offset {offset} of the image",
        fr: "terminez la routine par RET (81) ou JRA ; la longueur de la routine {number}, à présent {length}, est au décalage {offset} de l'image"
    }
}

// 10 and 13: jumps.
table! {
    into_instruction(target: u16, address: u16, text: &str, bytes: &str) {
        en: "the target {target:04X} is inside {address:04X} {text} ({bytes}), and not where an instruction begins",
        fr: "la cible {target:04X} est à l'intérieur de {address:04X} {text} ({bytes}), et non là où commence une instruction"
    }
    leaves_routine(target: u16, range: &str, what: &str) {
        en: "the target {target:04X} is outside the routine, {range}: {what}",
        fr: "la cible {target:04X} est hors de la routine, {range} : {what}"
    }
    in_routine(routine: &str) { en: "it is in {routine}", fr: "elle est dans la {routine}" }
    in_instruction(address: u16, text: &str, routine: &str) {
        en: "{address:04X} {text} is there, in {routine}",
        fr: "{address:04X} {text} s'y trouve, dans la {routine}"
    }
    in_no_code() { en: "no code is there", fr: "il n'y a là aucun code" }
    distance(distance: i8, next: &str) {
        en: "its distance is {distance:+}, counted from {next}, the next address",
        fr: "sa distance est de {distance:+}, comptée depuis {next}, l'adresse suivante"
    }
    count_anew(choices: &str) {
        en: "count the distance anew: its byte is {choices}",
        fr: "recomptez la distance : son octet est {choices}"
    }
    choice(byte: u8, address: u16) { en: "{byte:02X} for {address:04X}", fr: "{byte:02X} pour {address:04X}" }
    another_target() { en: "take a target where an instruction begins", fr: "prenez une cible où commence une instruction" }
    stay_in_routine() {
        en: "jump within the routine; to go to another one, call it",
        fr: "sautez à l'intérieur de la routine ; pour aller dans une autre, appelez-la"
    }
}

// 6, 7 and 11: paths and depths.
table! {
    unreached(address: u16) {
        en: "no path from the routine's first byte leads to {address:04X}",
        fr: "aucun chemin depuis le premier octet de la routine ne mène à {address:04X}"
    }
    does_not_go_on(address: u16, text: &str) {
        en: "the instruction before it, {address:04X} {text}, does not go on to it",
        fr: "l'instruction qui précède, {address:04X} {text}, n'y mène pas"
    }
    jump_not_reached(address: u16, text: &str) {
        en: "{address:04X} {text} jumps there, but is not reached either",
        fr: "{address:04X} {text} y saute, mais n'est pas atteinte non plus"
    }
    no_jump_there() { en: "no jump has it as its target", fr: "aucun saut ne la prend pour cible" }
    how_many_unreached(count: usize, of: usize) {
        en: "instructions of the routine that are not reached: {count} of {of}",
        fr: "instructions de la routine qui ne sont pas atteintes : {count} sur {of}"
    }
    lead_there() {
        en: "take out what is not reached, or let a jump that is reached go there",
        fr: "retirez ce qui n'est pas atteint, ou faites-y aller un saut qui l'est"
    }
    disagree(address: u16, text: &str, one: i32, other: i32) {
        en: "two paths come to {address:04X} {text} at different depths: {one} and {other}",
        fr: "deux chemins arrivent à {address:04X} {text} à des profondeurs différentes : {one} et {other}"
    }
    one_path(depth: i32) { en: "One path comes there at depth {depth}:", fr: "Un chemin y arrive à la profondeur {depth} :" }
    other_path(depth: i32) { en: "The other comes there at depth {depth}:", fr: "L'autre y arrive à la profondeur {depth} :" }
    path_there() { en: "The path that leads there:", fr: "Le chemin qui y mène :" }
    jump_taken() { en: "jumps", fr: "saute" }
    lines_left_out(count: usize) { en: ".. lines left out: {count}", fr: ".. lignes omises : {count}" }
    turn_of_loop(address: u16, change: i32) {
        en: "a turn of the loop from {address:04X} and back changes the depth by {change:+}, wanted 0",
        fr: "un tour de la boucle qui part de {address:04X} et y revient change la profondeur de {change:+}, attendu 0"
    }
    mend_loop() {
        en: "let each turn of the loop pop as much as it pushes",
        fr: "faites que chaque tour de la boucle dépile autant qu'il empile"
    }
    mend_paths(bytes: &str) {
        en: "look for a jump over a push or a pop, and push or pop {bytes} more or less on one of the paths",
        fr: "cherchez un saut par-dessus un empilement ou un dépilement, et empilez ou dépilez {bytes} de plus ou de moins sur l'un des chemins"
    }
    comes_with(depth: i32) {
        en: "it is reached at depth {depth}, wanted 0 to 255",
        fr: "elle est atteinte à la profondeur {depth}, attendu de 0 à 255"
    }
    leaves_depth(before: i32, change: i32, after: i32) {
        en: "depth {before} before it and {after} after it ({change:+}), wanted 0 to 255",
        fr: "profondeur {before} avant elle et {after} après elle ({change:+}), attendu de 0 à 255"
    }
    ret_above_0(depth: i32) {
        en: "RET is reached at depth {depth}, wanted 0",
        fr: "RET est atteint à la profondeur {depth}, attendu 0"
    }
    pop_before_ret(bytes: &str, depth: i32) {
        en: "pop {bytes} before RET, such as by ADDW SP,#${depth:02X} (5B {depth:02X})",
        fr: "dépilez {bytes} avant RET, par exemple par ADDW SP,#${depth:02X} (5B {depth:02X})"
    }
    pop_less() {
        en: "push more on the path there, or pop less",
        fr: "empilez davantage sur le chemin qui y mène, ou dépilez moins"
    }
    push_less() { en: "keep 255 bytes on the stack at most", fr: "gardez 255 octets au plus sur la pile" }
}

// 12: stores.
table! {
    store_outside(bytes: &str, place: &str, grant: &str, second: &str) {
        en: "it stores {bytes} at {place}, which no grant holds: the grant is {grant}, {second}",
        fr: "elle écrit {bytes} à {place}, qu'aucune zone accordée ne contient : la zone accordée est {grant}, {second}"
    }
    second_is(area: &str) { en: "the second grant {area}", fr: "la seconde zone accordée {area}" }
    no_second() { en: "and there is no second grant", fr: "et il n'y a pas de seconde zone accordée" }
    over_seam() {
        en: "each byte lies in a grant, but a word has to lie in one",
        fr: "chaque octet est dans une zone accordée, mais un mot doit tenir dans une seule"
    }
    store_in_grant(place: &str) {
        en: "store in a grant, or have the controller's limits widened so that one grant holds {place}",
        fr: "écrivez dans une zone accordée, ou faites élargir les limites du contrôleur pour qu'une seule zone accordée contienne {place}"
    }
    store_in_memory() {
        en: "store in a grant; no grant goes above 7FFF",
        fr: "écrivez dans une zone accordée ; aucune ne dépasse 7FFF"
    }
    sp_byte(first: u16) { en: "SP + {first}", fr: "SP + {first}" }
    sp_word(first: u16, last: u16) { en: "SP + {first} and SP + {last}", fr: "SP + {first} et SP + {last}" }
    store_on_stack(bytes: &str, place: &str, depth: i32) {
        en: "it stores {bytes} at {place}; at depth {depth} offsets from 1 to {depth} are the routine's own",
        fr: "elle écrit {bytes} à {place} ; à la profondeur {depth}, les décalages de 1 à {depth} sont à la routine"
    }
    store_on_empty_stack(bytes: &str, place: &str) {
        en: "it stores {bytes} at {place}; at depth 0 no offset is the routine's own",
        fr: "elle écrit {bytes} à {place} ; à la profondeur 0, aucun décalage n'est à la routine"
    }
    push_first() {
        en: "push before it, by PUSH or SUB SP, and store at offsets from 1 to the depth",
        fr: "empilez d'abord, par PUSH ou SUB SP, et écrivez à des décalages allant de 1 à la profondeur"
    }
}

// What is accepted: turns.
table! {
    turn_within(steps: &str) { en: "Turn: at most {steps}", fr: "Tour : au plus {steps}" }
    turn_over() { en: "Turn: above 4,294,967,295 steps", fr: "Tour : plus de 4 294 967 295 pas" }
    no_turn(jump: &str) { en: "Turn: none, a jump goes back: {jump}", fr: "Tour : aucun, un saut va en arrière : {jump}" }
    one_step(count: u32) { en: "{count} step", fr: "{count} pas" }
    many_steps(count: u32) { en: "{count} steps", fr: "{count} pas" }
}

// 14 and 16, and what is accepted: calls and needs.
table! {
    calls_itself(target: u16) {
        en: "{target:04X} is the first byte of this very routine, and no routine calls itself",
        fr: "{target:04X} est le premier octet de cette même routine, et aucune routine ne s'appelle elle-même"
    }
    calls_later(target: u16, routine: &str) {
        en: "{target:04X} is the first byte of {routine}, which stands later",
        fr: "{target:04X} est le premier octet de la {routine}, qui vient plus loin"
    }
    calls_inside(target: u16, routine: &str, range: &str) {
        en: "{target:04X} is inside {routine}, {range}, and not its first byte",
        fr: "{target:04X} est à l'intérieur de la {routine}, {range}, et n'en est pas le premier octet"
    }
    calls_no_code(target: u16) { en: "no code is at {target:04X}", fr: "il n'y a aucun code à l'adresse {target:04X}" }
    may_call(list: &str) {
        en: "what this routine may call: {list}",
        fr: "ce que cette routine peut appeler : {list}"
    }
    callee_at(number: usize, address: u16) { en: "routine {number} at {address:04X}", fr: "la routine {number} à {address:04X}" }
    may_call_none() {
        en: "this routine is the first one, and may call none",
        fr: "cette routine est la première, et ne peut en appeler aucune"
    }
    loop_instead() { en: "take a loop in place of the call", fr: "prenez une boucle au lieu de l'appel" }
    move_callee(callee: usize, caller: usize) {
        en: "put routine {callee} before routine {caller} in the image, and mend the addresses of the calls; main is the one that stands last",
        fr: "placez la routine {callee} avant la routine {caller} dans l'image, et corrigez les adresses des appels ; main est celle qui vient en dernier"
    }
    call_first_byte(routine: usize, address: u16) {
        en: "call the first byte of routine {routine}, {address:04X}, or make a routine of what is meant",
        fr: "appelez le premier octet de la routine {routine}, {address:04X}, ou faites une routine de ce qui est visé"
    }
    call_earlier() {
        en: "make a routine of what is meant, and put it before this one",
        fr: "faites une routine de ce qui est visé, et placez-la avant celle-ci"
    }
    mend_call() {
        en: "call the first byte of a routine that stands before this one",
        fr: "appelez le premier octet d'une routine placée avant celle-ci"
    }
    stack_too_small(need: i32, stack: &str, area: i32, missing: i32) {
        en: "the need is {need} bytes, and the stack area {stack} has {area}: {missing} missing",
        fr: "le besoin est de {need} octets, et la zone de pile {stack} en a {area} : il en manque {missing}"
    }
    enlarge_stack(bytes: &str) {
        en: "have the stack area enlarged to {bytes}, or keep less on the stack where this chain calls",
        fr: "faites porter la zone de pile à {bytes}, ou gardez moins d'octets sur la pile aux appels de cette chaîne"
    }
    need_of_area(need: u16, area: u32, stack: &str) {
        en: "Need: {need} bytes, of the {area} of the stack area {stack}",
        fr: "Besoin : {need} octets, sur les {area} de la zone de pile {stack}"
    }
    instructions(count: u16) { en: "Instructions: {count}", fr: "Instructions : {count}" }
    routines() {
        en: "Routines, and what each needs beyond the address that it returns to:",
        fr: "Routines, et ce dont chacune a besoin en plus de son adresse de retour :"
    }
    routine_need(routine: &str, range: &str, need: i32) {
        en: "{routine}, {range}: need {need}",
        fr: "{routine}, {range} : besoin {need}"
    }
    chain() { en: "The chain of calls that needs most:", fr: "La chaîne d'appels qui a le plus grand besoin :" }
    return_of_main() { en: "the address that main returns to", fr: "l'adresse de retour de main" }
    link_calls(routine: &str, address: u16, text: &str, depth: i32, return_address: i32) {
        en: "{routine}, {address:04X} {text}: depth {depth}, and {return_address} for the return address",
        fr: "{routine}, {address:04X} {text} : profondeur {depth}, et {return_address} pour l'adresse de retour"
    }
    link_pushes(routine: &str, address: u16, text: &str) {
        en: "{routine}, {address:04X} {text}: its greatest depth",
        fr: "{routine}, {address:04X} {text} : sa plus grande profondeur"
    }
    link_keeps_nothing(routine: &str) { en: "{routine}: it pushes nothing", fr: "{routine} : elle n'empile rien" }
    in_all() { en: "in all, the need", fr: "en tout, le besoin" }
}
