#!/usr/bin/env python3
"""Writes the regular part of the proofs of `law_server::tables`: for each small effect on the server one lemma for each part of
Fits that reads a column which the effect writes, and the record that joins them.

Run `rt tidy` and `rt fmt` in the crate behind it: it writes all imports into each file.
"""
import os

from law_text import proofs_of, sentence, write_module

# field: (word, columns that it reads, variables, hypotheses)
PARTS = {
    'attached': ('Attached', 'session_of_open standing present', 'p x', 'h'),
    'plain_attached': ('PlainAttached', 'standing opened session_of_open', 'p', 'st pl'),
    'guid_open': ('GuidOpen', 'by_guid standing opened', 'c g p', 'h'),
    'open_guid': ('OpenGuid', 'standing opened by_guid', 'p g', 'st h'),
    'persistent_guid': ('PersistentGuid', 'standing opened', 'p', 'st h'),
    'deadlines': ('Deadlines', 'deadline session_of_open', 'p d', 'h'),
    'listed': ('Listed', 'opens standing', 'p', ''),
    'ascending': ('Ascending', 'opens', '', ''),
    'open_ids': ('OpenIds', 'standing epoch open_ids_given', 'p', 'st'),
    'given': ('Given', 'open_ids_given', '', ''),
    'begun': ('Begun', 'session_ids_given', '', ''),
    'session_ids': ('SessionIds', 'present epoch session_ids_given', 'x', 'h'),
    'making_ids': ('MakingIds', 'making epoch session_ids_given present', 'k x', 'h'),
    'making_once': ('MakingOnce', 'making', 'j k x', 'h e'),
    'on_present': ('OnPresent', 'session_on present', 'k x', 'h'),
    'on_made': ('OnMade', 'session_on making', 'k x', 'h'),
    'no_trees': ('NoTrees', 'present trees', 'x', 'h'),
    'no_closed': ('NoClosed', 'present closed', 'x g', 'h'),
    'no_refused': ('NoRefused', 'present refused', 'x g', 'h'),
    'no_guids': ('NoGuids', 'present guids', 'x', 'h'),
    'next_tree': ('NextTree', 'present next_tree', 'x', 'h'),
    'tree_ids': ('TreeIds', 'trees next_tree', 'x n t', 'h'),
    'range_owners': ('RangeOwners', 'ranges standing opened', 'y n r', 'h'),
    'not_root': ('NotRoot', 'opened', 'p', 'h'),
    'root_stays': ('RootStays', 'delete_pending', '', ''),
    'open_files': ('OpenFiles', 'standing opened entries', 'p', 'st'),
    'next_file': ('NextFile', 'next_file', '', ''),
    'file_numbers': ('FileNumbers', 'entries next_file', 'y', 'h'),
    'room': ('Room', 'room', '', ''),
    'limit': ('Limit', 'limit', '', ''),
}

HEAD = open(os.path.join(os.path.dirname(__file__), 'law_server_imports.txt')).read()


class Effect:
    def __init__(self, module, name, says, args, premises, state, writes, proofs=None, needs=None, head=''):
        self.module, self.name, self.says, self.args, self.premises = module, name, says, args, premises
        self.state, self.writes, self.proofs, self.needs, self.head = state, writes.split(), proofs or {}, needs or {}, head


def default_proof(part, extra=''):
    word, columns, variables, hyps = PARTS[part]
    if not variables:
        return 'grind arith'
    return 'λ %s. let old = i_%s %s in %sgrind arith' % (variables, part, variables, extra)


def emit(effect):
    args = ' '.join('(%s : %s)' % a for a in effect.args)
    names = ' '.join(a[0] for a in effect.args)
    premises = ' → '.join('(%s)' % p[1] for p in effect.premises)
    given = ' '.join(p[0] for p in effect.premises)
    out, fields = [], []
    out.append(effect.head)
    for part, (word, columns, variables, hyps) in PARTS.items():
        if not set(columns.split()) & set(effect.writes):
            fields.append('%s = i.%s' % (part, part))
            continue
        needs = effect.needs.get(part, [part])
        proof = effect.proofs.get(part) or default_proof(part)
        if proof.startswith('+'):
            proof = default_proof(part, proof[1:])
        lemma = '%s_%s' % (effect.name, part)
        sig = '%s : (s : Server) %s → ' % (lemma, args)
        if premises:
            sig += premises + ' → '
        sig += ''.join('%s s → ' % PARTS[n][0] for n in needs)
        sig += '%s (%s)' % (word, effect.state)
        out.append(sig)
        out.append('unfolding exists')
        out.append('%s s %s %s %s =\n    %s\n' % (lemma, names, given, ' '.join('i_%s' % n for n in needs), proof))
        fields.append('%s = %s s %s %s %s' % (part, lemma, names, given, ' '.join('i.%s' % n for n in needs)))
    out.append('-- ' + effect.says)
    sig = 'pub %s_keeps : (s : Server) %s → ' % (effect.name, args)
    if premises:
        sig += premises + ' → '
    out.append(sig + 'Fits s → Fits (%s)' % effect.state)
    out.append('unfolding exists')
    out.append('%s_keeps s %s %s i =\n    record {\n      %s\n    }\n' % (effect.name, names, given, ';\n      '.join(fields)))
    return '\n'.join(out)


SESSION = ('session', 'ℕ')
EFFECTS = [
    Effect('AddOpen', 'add_open', 'a new open stands, with an id that no open has', [('o', 'ℕ'), ('row', 'Open'),
    ('session', 'Option ℕ'), ('sequence', 'ℕ'), ('n', 'ℕ'), ('gs', 'ℕ → ℕ'), ('trees', 'ℕ → ℕ')],
           [('free', 's.standing o ≡ false'), ('above', '0 < o'), ('id', 'o ≤ id_of s.epoch n'),
           ('more', 's.open_ids_given ≤ n'), ('most', 'n ≤ max_ids'),
            ('sess', '(x : ℕ) → session ≡ Some x → s.present x ≡ true'), ('plain', 'row.persistent ≡ false → is_some session ≡ true'),
            ('guid', '(g : ℕ) → row.create_guid ≡ Some g → s.by_guid row.client_guid g ≡ None'),
            ('pguid', 'row.persistent ≡ true → is_some row.create_guid ≡ true'),
            ('file', 'exists s row.file ≡ true'), ('off_root', 'deletes_on_close row.options ≡ true → row.file ≢ root'),
            ('kept', '(x : ℕ) → s.present x ≡ false → gs x ≡ 0')],
           'record (add_open s o row session sequence) { open_ids_given = n; tree_of_open = trees; guids = gs }',
           'opens standing opened session_of_open deadline by_guid open_ids_given guids',
           {'attached': '+let new = sess x in ',
            'guid_open': 'λ c g p. added_guid s o row c g p free i_guid_open row.create_guid refl',
            'open_guid': 'λ p g. added_open s o row p g free guid i_open_guid row.create_guid refl',
            'listed': 'λ p. let old = i_listed p in has-placed p o s.opens ∙ (grind arith)',
            'ascending': 'ascending-placed o s.opens i_ascending (i_listed o ∙ free)',
            'no_guids': 'kept',
            },
           {'ascending': ['ascending', 'listed'], 'range_owners': ['range_owners']},
           '''
-- the table of guids with the new open's, as its guid is
added_guid : (s : Server) (o : ℕ) (row : Open) (c g p : ℕ) → s.standing o ≡ false → GuidOpen s → (u : Option ℕ)
    → row.create_guid ≡ u → with_guid s.by_guid row.client_guid u (Some o) c g ≡ Some p
    → put s.standing o true p ≡ true × (put s.opened o row p).client_guid ≡ c × (put s.opened o row p).create_guid ≡ Some g
added_guid s o row c g p free old None e = let was = old c g p in grind arith
added_guid s o row c g p free old (Some h) e = let was = old c g p in grind arith

added_open : (s : Server) (o : ℕ) (row : Open) (p g : ℕ) → s.standing o ≡ false
    → ((x : ℕ) → row.create_guid ≡ Some x → s.by_guid row.client_guid x ≡ None) → OpenGuid s → (u : Option ℕ)
    → row.create_guid ≡ u
    → put s.standing o true p ≡ true → (put s.opened o row p).create_guid ≡ Some g
        → with_guid s.by_guid row.client_guid u (Some o) (put s.opened o row p).client_guid g ≡ Some p
added_open s o row p g free guid old None e = let was = old p g in grind arith
added_open s o row p g free guid old (Some h) e = let was = old p g in let new = guid h e in grind arith
'''),
    Effect('DropOpen', 'drop_open', 'an open leaves, with its ranges and its guid', [('o', 'ℕ')], [('stands', 's.standing o ≡ true')],
           'drop_open s o', 'opens standing session_of_open deadline by_guid ranges',
           {'guid_open': 'λ c g p. dropped_guid s o c g p i_guid_open (s.opened o).create_guid refl',
            'open_guid': 'λ p g. dropped_open s o p g stands i_open_guid (s.opened o).create_guid refl',
            'listed': 'λ p. let old = i_listed p in has-without p o s.opens ∙ (grind arith)',
            'ascending': 'ascending-without o s.opens i_ascending',
            'range_owners': 'λ y n r. dropped_range s o y n r i_range_owners (y == (s.opened o).file) refl',
            },
           {'guid_open': ['guid_open']},
           """
dropped_guid : (s : Server) (o c g p : ℕ) → GuidOpen s → (u : Option ℕ) → (s.opened o).create_guid ≡ u
    → with_guid s.by_guid (s.opened o).client_guid u None c g ≡ Some p
    → put s.standing o false p ≡ true × (s.opened p).client_guid ≡ c × (s.opened p).create_guid ≡ Some g
dropped_guid s o c g p old None e = let was = old c g p in grind arith
dropped_guid s o c g p old (Some h) e = let was = old c g p in grind arith

dropped_open : (s : Server) (o p g : ℕ) → s.standing o ≡ true → OpenGuid s → (u : Option ℕ) → (s.opened o).create_guid
    ≡ u → put s.standing o false p ≡ true → (s.opened p).create_guid ≡ Some g
    → with_guid s.by_guid (s.opened o).client_guid u None (s.opened p).client_guid g ≡ Some p
dropped_open s o p g stands old None e = let was = old p g in grind arith
dropped_open s o p g stands old (Some h) e = let was = old p g in let own = old o h stands e in grind arith

dropped_range : (s : Server) (o y n : ℕ) (r : Range) → RangeOwners s → (b : Bool) → (y == (s.opened o).file) ≡ b
    → slice_get (if b then without_owner o (s.ranges (s.opened o).file) else s.ranges y) n ≡ Some r
        → put s.standing o false r.owner ≡ true × (s.opened r.owner).file ≡ y
dropped_range s o y n r old true e h = let f = without_owner-from o (s.ranges (s.opened o).file) n r h in let was = old
    (s.opened o).file f.1.0 r f.1.1 in let same = eqb-true y (s.opened o).file e in grind arith
dropped_range s o y n r old false e h = let was = old y n r h in grind arith
"""),
    Effect('FileEffects', 'make_file', 'a file is made, with the next number', [('path', 'List ℕ'), ('is_dir', 'Bool'),
    ('attributes', 'ℕ'), ('now', 'ℕ')], [],
           'make_file s path is_dir attributes now', 'entries next_file ranges delete_pending',
           {'open_files': 'λ p st. let old = i_open_files p st in let more = exists-pushed s.entries (record { file = '
               's.next_file; path = path }) (s.opened p).file in grind arith',
            'file_numbers': 'λ y. let old = i_file_numbers y in let more = exists-pushed s.entries (record { file = s.next_file; '
                'path = path }) y in grind (arith, nat_tests)'},
           {'file_numbers': ['file_numbers', 'next_file']}),
    Effect('FileEffects', 'set_delete_pending', 'a file becomes delete pending or no longer is, and not the root',
    [('f', 'ℕ'), ('flag', 'Bool')], [('other', 'flag ≡ true → f ≢ root')],
           'set_delete_pending s f flag', 'delete_pending'),
    Effect('FileEffects', 'remove_file', 'a file goes that no open has', [('f', 'ℕ')],
    [('unopened', '(p : ℕ) → s.standing p ≡ true → ((s.opened p).file == f) ≡ false')],
           'remove_file s f', 'entries',
           {'open_files': 'λ p st. let old = i_open_files p st in let rest = exists-without f s.entries (s.opened p).file in '
               'let other = unopened p st in grind arith',
            'file_numbers': 'λ y. let old = i_file_numbers y in let rest = exists-without f s.entries y in grind arith'}),
    Effect('FileEffects', 'rename_file', 'a file has another path, and what no open has goes for it',
    [('f', 'ℕ'), ('replaced', 'Option ℕ'), ('to', 'List ℕ')],
           [('unopened', '(t p : ℕ) → replaced ≡ Some t → s.standing p ≡ true → ((s.opened p).file == t) ≡ false')],
           'rename_file s f replaced to', 'entries',
           {'open_files': 'λ p st. renamed_there s (path_of s f) to (s.opened p).file replaced (λ t e. unopened t p e st) '
               '(i_open_files p st)',
            'file_numbers': 'λ y h. i_file_numbers y (renamed_was s (path_of s f) to y replaced h)'}, {},
           """
without_target-was : (es : List Entry) (y : ℕ) (replaced : Option ℕ) → exists_in (without_target replaced es) y ≡ true
    → exists_in es y ≡ true
unfolding without_target
without_target-was es y None h = h
without_target-was es y (Some t) h = let rest = exists-without t es y in grind arith

renamed_was : (s : Server) (old to : List ℕ) (y : ℕ) (replaced : Option ℕ)
    → exists_in (moved_entries old to (without_target replaced s.entries)) y ≡ true → exists_in s.entries y ≡ true
renamed_was s old to y replaced h = without_target-was s.entries y replaced
    (sym (exists-moved old to (without_target replaced s.entries) y) ∙ h)

without_target-there : (es : List Entry) (y : ℕ) (replaced : Option ℕ)
    → ((t : ℕ) → replaced ≡ Some t → (y == t) ≡ false) → exists_in es y ≡ true → exists_in (without_target replaced es) y ≡ true
unfolding without_target
without_target-there es y None other h = h
without_target-there es y (Some t) other h = let rest = exists-without t es y in let o = other t refl in grind arith

renamed_there : (s : Server) (old to : List ℕ) (y : ℕ) (replaced : Option ℕ)
    → ((t : ℕ) → replaced ≡ Some t → (y == t) ≡ false) → ((y == root) || exists_in s.entries y) ≡ true
    → ((y == root) || exists_in (moved_entries old to (without_target replaced s.entries)) y) ≡ true
renamed_there s old to y replaced other h =
    let same = exists-moved old to (without_target replaced s.entries) y in let there = without_target-there s.entries y
        replaced other in grind arith
"""),
    Effect('FileEffects', 'set_ranges', "a file's ranges are others, of opens that stand at it", [('f', 'ℕ'), ('ranges', 'List Range')],
           [('own', '(n : ℕ) (r : Range) → slice_get ranges n ≡ Some r → s.standing r.owner ≡ true × (s.opened r.owner).file ≡ f')],
           'set_ranges s f ranges', 'ranges',
           {'range_owners': 'λ y n r. let old = i_range_owners y n r in let new = own n r in grind arith'}),
    Effect('SessionEffects', 'attach', "an open that stands becomes a session's", [('m', 'Message'), ('o', 'ℕ')],
    [('stands', 's.standing o ≡ true'), ('there', 's.present m.session_id ≡ true')],
           'attach s m o', 'session_of_open deadline guids'),
    Effect('SessionEffects', 'keep_refusal', 'a session keeps a refusal', [('session', 'ℕ'), ('guid', 'ℕ'),
    ('status', 'ℕ')], [('there', 's.present session ≡ true')],
           'keep_refusal s session guid status', 'refused guids'),
    Effect('SessionEffects', 'close_guid', 'a session keeps that an open was closed', [('session', 'ℕ'), ('guid', 'ℕ')],
    [('there', 's.present session ≡ true')],
           'record s { closed = put2 s.closed session guid true }', 'closed'),
    Effect('SessionEffects', 'challenge', 'a session is in the making, with the next id', [('line', 'ℕ')],
    [('off', 's.session_on line ≡ None'), ('left', 's.session_ids_given < max_ids')],
           'record s { session_ids_given = s.session_ids_given + 1; making = put s.making line (Some '
               '(NewSession (next_session s))) }', 'session_ids_given making',
           {'session_ids': 'λ x. let old = i_session_ids x in grind arith',
            'making_once': 'λ j k x. let old = i_making_once j k x in let a = i_making_ids j x in let b = i_making_ids k x in grind arith'},
           {'making_ids': ['making_ids', 'session_ids'], 'making_once': ['making_once', 'making_ids']}),
    Effect('SessionEffects', 'bind', 'a binding is in the making', [('line', 'ℕ'), ('session', 'ℕ')], [('off', 's.session_on line ≡ None')],
           'record s { making = put s.making line (Some (Binding session)) }', 'making'),
    Effect('SessionEffects', 'add_session', 'a session begins that was in the making',
    [('m', 'Message'), ('user', 'List ℕ'), ('r', 'SetupRequest')],
           [('absent', 's.present m.session_id ≡ false'), ('new', 's.making m.connection ≡ Some (NewSession m.session_id)')],
           'add_session s m user r', 'present trees next_tree session_on making',
           {},
           {'session_ids': ['session_ids', 'making_ids'], 'making_ids': ['making_ids', 'making_once']}),
    Effect('SessionEffects', 'join_session', 'a session that is there has a further connection',
    [('m', 'Message'), ('session', 'ℕ')], [('there', 's.present session ≡ true')],
           'join_session s m session', 'session_on making'),
    Effect('SessionEffects', 'add_tree', 'a session has a further tree', [('session', 'ℕ'), ('pipes', 'Bool')],
    [('there', 's.present session ≡ true')],
           'add_tree s session pipes', 'trees next_tree',
           {'tree_ids': 'λ x n t. added_tree s session pipes x n t there i_tree_ids i_next_tree (x == session) refl'},
           {'tree_ids': ['tree_ids', 'next_tree']},
           """
added_tree : (s : Server) (session : ℕ) (pipes : Bool) (x n : ℕ) (t : Tree) → s.present session ≡ true → TreeIds s
    → NextTree s → (b : Bool) → (x == session) ≡ b
    → slice_get (if b then s.trees session ++ record { id = s.next_tree session; pipes = pipes } ∷ [] else s.trees x) n
        ≡ Some t → 0 < t.id × t.id < (if b then s.next_tree session + 1 else s.next_tree x)
added_tree s session pipes x n t there old next true e h = elim
    (pushed-from (s.trees session) (record { id = s.next_tree session; pipes = pipes }) n t h) [
  | inl q ↦ let above = next session there in grind arith
  | inr a ↦ let was = old session a.0 t a.1 in grind arith
]
added_tree s session pipes x n t there old next false e h = old x n t h
"""),
    Effect('SessionEffects', 'less_tree', 'a session has a tree less', [('session', 'ℕ'), ('id', 'ℕ')], [],
           'record s { trees = put s.trees session (without_tree id (s.trees session)) }', 'trees',
           {'no_trees': '+let none : without_tree id [] ≡ [] = no_tree id in ',
            'tree_ids': 'λ x n t. dropped_tree s session id x n t i_tree_ids (x == session) refl'}, {},
           """
no_tree : (id : ℕ) → without_tree id [] ≡ []
unfolding without_tree
no_tree id = refl

dropped_tree : (s : Server) (session id x n : ℕ) (t : Tree) → TreeIds s → (b : Bool) → (x == session) ≡ b
    → slice_get (if b then without_tree id (s.trees session) else s.trees x) n ≡ Some t → 0 < t.id × t.id < s.next_tree x
dropped_tree s session id x n t old true e h = let f = without_tree-from id (s.trees session) n t h in let was = old
    session f.1.0 t f.1.1 in let same = eqb-true x session e in grind arith
dropped_tree s session id x n t old false e h = old x n t h
"""),
    Effect('SessionEffects', 'forget', 'a connection is forgotten', [('line', 'ℕ')], [],
           'forget_connection s line', 'session_on making'),
    Effect('SessionEffects', 'deadlines', 'an open without a session gets its deadline', [('now', 'ℕ')], [],
           'with_deadlines s now', 'deadline',
           {'deadlines': 'λ p d. dated_first now (s.standing p) (s.session_of_open p) (s.opened p) (s.deadline p) d (i_deadlines p)'}, {},
           """
dated_first : (now : ℕ) (stands : Bool) (at : Option ℕ) (row : Open) (deadline : Option ℕ) (d : ℕ)
    → ((e : ℕ) → deadline ≡ Some e → at ≡ None) → first_deadline now stands at row deadline ≡ Some d → at ≡ None
dated_first now stands None row deadline d old h = refl
dated_first now true (Some x) row deadline d old h = old d h
dated_first now false (Some x) row deadline d old h = old d h
"""),
    Effect('SessionEffects', 'epoch', 'a new epoch begins, in which no id was given', [('number', 'ℕ')], [('next', 'number ≡ s.epoch + 1')],
           'record s { epoch = number; open_ids_given = 0; session_ids_given = 0 }', 'epoch open_ids_given session_ids_given',
           {}, {'open_ids': ['open_ids', 'given'], 'session_ids': ['session_ids', 'begun'], 'making_ids': ['making_ids', 'begun']}),
    Effect('SessionEffects', 'configured', 'the configuration is another', [('share', 'List ℕ'), ('room', 'ℕ'),
    ('seals', 'Bool'), ('address', 'Address'), ('journal', 'ℕ')], [('small', 'room ≤ full_room')],
           'record s { share = share; room = room; encrypts = seals; address = address; journal = journal }', 'room', {'room': 'small'}),
    Effect('SessionEffects', 'unread', 'what nothing here reads is other',
    [('sequence', 'ℕ → ℕ'), ('slots', 'ℕ → ℕ → Option Kept'), ('listed', 'ℕ → Option (List ℕ)'), ('offset', 'ℕ → ℕ'),
    ('content', 'ℕ → List ℕ'), ('basic', 'ℕ → Basic'), ('connections', 'List ℕ'), ('expired_guids', 'ℕ → ℕ → Bool'),
    ('expired_count', 'ℕ'), ('version', 'ℕ'), ('journal', 'ℕ')], [],
           'record s { sequence = sequence; lock_sequences = slots; enumeration_location = listed; current_byte_offset = offset; content = '
               'content; basic = basic; connections = connections; expired_guids = expired_guids; expired_count = '
               'expired_count; version = version; journal = journal }', ''),
    Effect('EndSession', 'end_session', 'a session ends: its plain opens leave, and what it kept is forgotten',
    [('session', 'ℕ'), ('now', 'ℕ'), ('is_quiet', 'Bool')], [],
           'end_session s session now is_quiet',
               'entries delete_pending ranges opens standing by_guid session_of_open deadline present trees closed '
               'refused guids session_on',
           {'guid_open': 'λ c g p. ended_guid s session c g p i_guid_open (s.by_guid c g) refl',
            'open_guid': 'λ p g. let old = i_open_guid p g in ended_named s session p g old',
            'deadlines': 'λ p d. dated_end session now (s.opened p) (s.session_of_open p) (s.deadline p) d (i_deadlines p)',
            'listed': 'λ p. let old = i_listed p in has-staying s session p s.opens ∙ (grind arith)',
            'ascending': 'ascending-staying s session s.opens i_ascending',
            'range_owners': 'λ y n r h. let f = ranges_staying-from s session (s.ranges y) n r h in let was = i_range_owners y '
                'f.1.0 r f.1.1 in let stays = f.0 in grind arith',
            'open_files': 'λ p st. ended_files s session is_quiet p (files_left s session is_quiet i_listed i_open_files '
                'i_file_numbers i_not_root i_root_stays) st',
            'root_stays': '(files_left s session is_quiet i_listed i_open_files i_file_numbers i_not_root i_root_stays).not_pending',
            'file_numbers': 'λ y h. ended_numbers s session is_quiet y (files_left s session is_quiet i_listed i_open_files '
                'i_file_numbers i_not_root i_root_stays) h'},
           {'open_files': ['open_files', 'listed', 'file_numbers', 'not_root', 'root_stays'],
           'file_numbers': ['file_numbers', 'open_files', 'listed', 'not_root', 'root_stays'],
            'root_stays': ['root_stays', 'open_files', 'listed', 'file_numbers', 'not_root']},
           """
ended_guid : (s : Server) (session c g p : ℕ) → GuidOpen s → (u : Option ℕ) → s.by_guid c g ≡ u → guid_staying s session u ≡ Some p
    → (s.standing p && not (leaves s session p)) ≡ true × (s.opened p).client_guid ≡ c × (s.opened p).create_guid ≡ Some g
ended_guid s session c g p old None e h = absurd (cc)
ended_guid s session c g p old (Some q) e h = let was = old c g q e in grind arith

ended_named : (s : Server) (session p g : ℕ) → (s.standing p ≡ true → (s.opened p).create_guid ≡ Some g
    → s.by_guid (s.opened p).client_guid g ≡ Some p)
    → (s.standing p && not (leaves s session p)) ≡ true → (s.opened p).create_guid ≡ Some g
        → guid_staying s session (s.by_guid (s.opened p).client_guid g) ≡ Some p
ended_named s session p g old st h =
    let e = old (front_of (s.standing p) (not (leaves s session p)) st) h in let out = not_true (leaves s session p)
        (back_of (s.standing p) (not (leaves s session p)) st) in rw e (stays_named s session p out)
  where
    stays_named : (s : Server) (session p : ℕ) → leaves s session p ≡ false → guid_staying s session (Some p) ≡ Some p
    stays_named s session p out = grind arith

dated_end : (session now : ℕ) (row : Open) (at deadline : Option ℕ) (d : ℕ) → ((e : ℕ) → deadline ≡ Some e → at ≡ None)
    → dated session now row at deadline ≡ Some d → cleared session at ≡ None
dated_end session now row None deadline d old h = refl
dated_end session now row (Some x) deadline d old h = let was = old d in grind arith

ended_files : (s : Server) (session : ℕ) (is_quiet : Bool) (p : ℕ)
    → AllLeft s (files_behind s session is_quiet) (plain_of s session) → (s.standing p && not (leaves s session p)) ≡ true
    → (((s.opened p).file == root) || exists_in (files_behind s session is_quiet).entries (s.opened p).file) ≡ true
unfolding exists
ended_files s session is_quiet p left st =
    let stands = front_of (s.standing p) (not (leaves s session p)) st in let out = not_true (leaves s session p)
        (back_of (s.standing p) (not (leaves s session p)) st) in
    let there = left.open_files p (left.stays p stands (not_plain s session p out)) in
    subst (λ rows. (((rows p).file == root) || exists_in (files_behind s session is_quiet).entries (rows p).file) ≡ true) left.opened there

ended_numbers : (s : Server) (session : ℕ) (is_quiet : Bool) (y : ℕ)
    → AllLeft s (files_behind s session is_quiet) (plain_of s session)
    → exists_in (files_behind s session is_quiet).entries y ≡ true → 0 < y × y < s.next_file
ended_numbers s session is_quiet y left h = subst (λ n. 0 < y × y < n) left.next_file (left.file_numbers y h)
"""),
]

MORE = {'EndSession': 'use Rattle.spec_exchange.specs.Effects.{plain_of}\nuse Rattle.law_server.proofs.tables.Leaving.{AllLeft, '
    'files_left, not_plain}\n'}

FILES = {}
for effect in EFFECTS:
    FILES.setdefault(effect.module, []).append(effect)


def main():
    for module, effects in FILES.items():
        head = sentence('; '.join(effect.says for effect in effects)) + HEAD + MORE.get(module, '')
        write_module(proofs_of("law_server", "tables"), module, head + '\n' + '\n'.join(emit(effect) for effect in effects))


if __name__ == '__main__':
    main()
