//! How often each handler came to each of its outcomes.

use std::ops::Range;

use port::{AnyVersion, Marks, Outcome, Tree, element, kind, sub};

use crate::never_symbol::{self, Never};

/// The fewest hits of each outcome in a run that passes.
pub const LEAST: u64 = 1_000;

macro_rules! hits {
    ($($name:ident $words:literal)*) => {
        /// A handler's outcome.
        #[derive(Clone, Copy, PartialEq, Eq)]
        pub enum Hit { $($name),* }

        pub const HITS: &[(Hit, &str)] = &[$((Hit::$name, $words)),*];
    };
}

hits! {
    LiteralRemoved "string literal: removed"
    IdentifierRemoved "identifier: removed"
    IdentifierStays "identifier: stays"
    FunctionRemoved "function: removed"
    FunctionStays "function: stays"
    ArrowRemoved "arrow: removed"
    ArrowStays "arrow: stays"
    OtherLeafRemoved "other leaf: removed"
    OtherLeafStays "other leaf: stays"
    ThisRemovedFlagged "this: removed, flagged"
    ThisRemovedUnflagged "this: removed, unflagged"
    ThisStaysFlagged "this: stays, flagged"
    ThisStaysUnflagged "this: stays, unflagged"
    VoidRemoved "void: removed"
    VoidOne "void: its argument left"
    NotRemoved "not: removed"
    NotOne "not: its argument left"
    TypeofIdentifierFlagged "typeof identifier: removed, identifier flagged"
    TypeofIdentifierUnflagged "typeof identifier: removed, identifier unflagged"
    TypeofRemoved "other typeof: removed"
    TypeofOne "other typeof: its argument left"
    OtherUnaryRemoved "other unary: removed"
    OtherUnaryStays "other unary: stays"
    SequenceEmpty "sequence: removed, empty"
    SequenceRemoved "sequence: removed, nothing left"
    SequenceOne "sequence: stays with one"
    SequenceSeveral "sequence: stays with several"
    ArrayEmpty "array: removed, empty"
    ArrayRemoved "array: removed, nothing left"
    ArrayStays "array: stays with a spread"
    ArrayOne "array: one left"
    ArraySeveral "array: several"
    ArrayElision "array: an elision goes"
    ArraySpreadGoes "array: an unflagged spread goes"
    TemplateEmpty "template: removed, no expressions"
    TemplateUnchanged "template: unchanged"
    TemplateRemoved "template: removed, nothing left"
    TemplateOneReduced "template: one left, a reduced one"
    TemplateOneMade "template: one left, a made template"
    TemplateSeveral "template: several"
    TemplateFlushedBefore "template: what waits is made a template before a kept one"
    TemplateFlushedAtEnd "template: what waits is made a template at the end"
    TemplateDroppedWhileWaiting "template: an expression goes while others wait"
    ObjectEmpty "object: removed, empty"
    ObjectSpreadsRemoved "object: removed, only unflagged spreads"
    ObjectSpreadsUnchanged "object: unchanged, only spreads"
    ObjectRemoved "object: removed, nothing left"
    ObjectOne "object: one left"
    ObjectSeveral "object: several"
    ObjectFlushedAtProperty "object: what waits is made an object at a property"
    ObjectFlushedAtEnd "object: what waits is made an object at the end"
    ObjectKeyKept "object: a key left"
    ComparisonRemoved "comparison: removed"
    ComparisonLeft "comparison: the left side left"
    ComparisonRight "comparison: the right side left"
    JoinNeither "comparison: two joined, neither a sequence"
    JoinLeft "comparison: two joined, the left a sequence"
    JoinRight "comparison: two joined, the right a sequence"
    JoinBoth "comparison: two joined, both sequences"
    AdditionUnflagged "addition: removed, unflagged"
    AdditionFolded "addition: removed, a string literal remains"
    AdditionGivesWay "addition: its left side left"
    AdditionLeftEmptied "addition: stays, the left side emptied"
    AdditionLeftFolded "addition: stays, the left side folded"
    AdditionLeftAsIs "addition: stays, the left side a flagged string"
    AdditionRightEmptied "addition: stays, the right side emptied"
    AdditionRightAsIs "addition: stays, the right side a flagged string"
    AdditionUnchanged "addition: stays, no string"
    OtherBinaryRemoved "other binary: removed"
    OtherBinaryStays "other binary: stays"
    CallRemoved "pure call: removed"
    CallOne "pure call: one left"
    CallSeveral "pure call: several"
    CallAnnotated "call: pure as annotated alone"
    CallListed "call: pure as listed alone"
    CallSummaryFree "call: pure as summary free alone"
    CallAnnotationsOff "call: annotated with annotations off, impure"
    CallSummaryOfNoIdentifier "call: summary free, callee no identifier, impure"
    CallPureFunction "call: pure, of a function or arrow, tree-shake-only off"
    CallSpreadWrapped "pure call or new: a flagged spread is made an array"
    CallSpreadGoes "pure call or new: an unflagged spread goes"
    CallImpureRemoved "impure call: removed"
    CallImpureStays "impure call: stays, flagged"
    CallPreserved "impure call: stays, unflagged, by tree-shake-only"
    NewRemoved "pure new: removed"
    NewOne "pure new: one left"
    NewSeveral "pure new: several"
    NewPureFunction "new: pure, of a function or arrow under tree-shake-only"
    NewImpureFlagged "impure new: stays, flagged"
    NewImpureUnflagged "impure new: stays, unflagged"
    ClassDecorated "class: stays, decorated"
    ClassElementDecorated "class: stays, an element decorated"
    ClassIndexSignature "class: stays, an index signature"
    ClassBlock "class: stays, a nonempty static block"
    ClassStaticValue "class: stays, a flagged static value"
    ClassArrowHeritage "class: stays, an arrow heritage"
    ClassArrowLast "class: stays, a heritage that ends in an arrow"
    ClassRemoved "class: removed"
    ClassOne "class: a sequence of one"
    ClassSeveral "class: a sequence of several"
    ClassHeritageExtracted "class: the heritage extracted"
    ClassKeyExtracted "class: a computed key extracted"
    ClassValueExtracted "class: a static value extracted"
    ClassValueLeft "class: a value that is not static goes"
    ConditionalUnflagged "conditional: removed, unflagged"
    ConditionalRemoved "conditional: removed, nothing left"
    ConditionalTest "conditional: its test left"
    ConditionalOr "conditional: or, the consequent goes"
    ConditionalAnd "conditional: and, the alternate goes"
    ConditionalStays "conditional: stays"
    ConditionalTestJoined "conditional: joined with a test that reducing would change"
    ConditionalTestStays "conditional: stays with a test that reducing would change"
    ConditionalArmReduced "conditional: stays with an arm that reducing changes"
    ConditionalJoinedUnflagged "conditional: an unflagged test and an unflagged arm are joined"
    ConditionalAsTest "conditional: stands as a test"
    ConditionalAsArm "conditional: stands as an arm"
    ConditionalAsCallee "conditional: stands as a callee"
    ConditionalAsArgument "conditional: stands as an argument"
    ConditionalAsHeritage "conditional: stands as a heritage"
    ConditionalAsObjectKey "conditional: stands as the key of a property"
    ConditionalAsValue "conditional: stands as the value of a property"
    ConditionalAsClassKey "conditional: stands as a computed key of a class"
    ConditionalAsStaticValue "conditional: stands as a static value"
    ConditionalAsSpread "conditional: is spread"
    ConditionalAsTemplateChild "conditional: stands in a template"
    ConditionalAsLeft "conditional: stands left in an addition"
    ConditionalAsRight "conditional: stands right in an addition"
    ListedConsequent "listing: a conditional's consequent runs"
    ListedAlternate "listing: a conditional's alternate runs"
    ListedAndRight "listing: the right side of an and runs"
    ListedAndLeft "listing: the left side of an and runs alone"
    ListedOrRight "listing: the right side of an or runs"
    ListedOrLeft "listing: the left side of an or runs alone"
    ChildVoid "reducing: void of unknown symbol is no symbol in a template"
    ChildNot "reducing: not of unknown symbol is no symbol in a template"
    ChildTypeof "reducing: typeof of unknown symbol is no symbol in a template"
    ChildComparison "reducing: a comparison of unknown symbol is no symbol in a template"
    ChildTemplate "reducing: a template of unknown symbol is no symbol in a template"
    ChildAddition "reducing: an addition with a string part of unknown symbol is no symbol in a template"
    RightVoid "reducing: void of unknown symbol goes, right of a string"
    RightNot "reducing: not of unknown symbol goes, right of a string"
    RightTypeof "reducing: typeof of unknown symbol goes, right of a string"
    RightComparison "reducing: a comparison of unknown symbol goes, right of a string"
    RightTemplate "reducing: a template of unknown symbol goes, right of a string"
    RightAddition "reducing: an addition with a string part of unknown symbol goes, right of a string"
    ListedChildVoid "listing: void of unknown symbol is not coerced in a template"
    ListedChildNot "listing: not of unknown symbol is not coerced in a template"
    ListedChildTypeof "listing: typeof of unknown symbol is not coerced in a template"
    ListedChildComparison "listing: a comparison of unknown symbol is not coerced in a template"
    ListedChildTemplate "listing: a template of unknown symbol is not coerced in a template"
    ListedChildAddition "listing: an addition with a string part of unknown symbol is not coerced in a template"
    ListedSideVoid "listing: void of unknown symbol is not coerced, right of a string"
    ListedSideNot "listing: not of unknown symbol is not coerced, right of a string"
    ListedSideTypeof "listing: typeof of unknown symbol is not coerced, right of a string"
    ListedSideComparison "listing: a comparison of unknown symbol is not coerced, right of a string"
    ListedSideTemplate "listing: a template of unknown symbol is not coerced, right of a string"
    ListedSideAddition "listing: an addition with a string part of unknown symbol is not coerced, right of a string"
    ListedLeftVoid "listing: void of unknown symbol is not coerced, left of a string"
    ListedLeftNot "listing: not of unknown symbol is not coerced, left of a string"
    ListedLeftTypeof "listing: typeof of unknown symbol is not coerced, left of a string"
    ListedLeftComparison "listing: a comparison of unknown symbol is not coerced, left of a string"
    ListedLeftTemplate "listing: a template of unknown symbol is not coerced, left of a string"
    ChildPlainAddition "reducing: an addition without a string part waits in a template"
    ChildRightPart "reducing: an addition with a string part on its right waits in a template"
    PlainAdditionYes "an addition without a string part is recorded as a symbol"
    YesVoid "refused by 5: void recorded as a symbol"
    YesNot "refused by 5: not recorded as a symbol"
    YesTypeof "refused by 5: typeof recorded as a symbol"
    YesComparison "refused by 5: a comparison recorded as a symbol"
    YesTemplate "refused by 5: a template recorded as a symbol"
    YesAddition "refused by 5: an addition with a string part recorded as a symbol"
    YesAdditionBefore8 "refused by 5: the same in a file that is too deep"
    YesAdditionAfter7 "refused by 7: the same in a file of a wrong shape"
    YesAdditionAfter6 "refused by 6: the same in a file with a left-out kind"
    CalledAnnotated "called function: stays, annotated alone"
    CalledListed "called function: stays, listed alone"
    CalledBoth "called function: stays, annotated and listed"
    CalledFunction "called function: stays, a function"
    CalledArrow "called function: stays, an arrow"
    CalledFlagged "called function: stays, flagged"
    CalledUnflagged "called function: stays, unflagged"
    CalledWithReducible "called function: stays with an argument that reducing would change"
    CalledAsArgument "called function: is an argument of a pure call or new"
    CalledAnnotationsOff "call of a function under tree-shake-only: annotated with annotations off"
    ListedCalledFlagged "listing: a called function, its callee, arguments and itself"
    ListedCalledUnflagged "listing: a called function, its callee and arguments"
    EndOfStart "ends: an end equal to its start is taken"
    EndOfSequence "ends: a made sequence has the node's, not its first child's"
    EndOfJoined "ends: a joined sequence has the comparison's, not its left side's"
    EndOfTemplateBefore "ends: a template made before a kept one has the kept one's, not the template's"
    EndOfTemplateLast "ends: a template made at the end has the template's, not the last child's"
    EndOfObjectBefore "ends: an object made at a property has the property's, not the object's"
    EndOfObjectLast "ends: an object made at the end has the object's, not the last spread's"
    EndOfArray "ends: an array made of a spread has the spread's, not the call's or new's"
    EndOfEmptiedLeft "ends: an emptied left side has its own, not the addition's"
    EndOfEmptiedRight "ends: an emptied right side has its own, not the addition's"
    EndOfLogical "ends: a logical has the conditional's, not its test's"
    Version0 "refused by 2: version 0"
    Version3 "refused by 2: version 3"
    VersionHigh "refused by 2: version 1 or 2 in the low byte, and another high byte than 0"
    Wide1 "refused by 4: version 1, records of 20 bytes"
    Narrow2 "refused by 4: version 2, records of 16 bytes"
    Length2 "refused by 4: version 2, cut or extended"
    SpanRoot "refused by 17: an end before its start, at the root"
    SpanInside "refused by 17: the same between the root and the last record"
    SpanLast "refused by 17: the same at the last record"
    SpanBefore8 "refused by 17: the same in a file that is too deep"
    SpanBefore9 "refused by 17: the same with too little output lent"
    SpanBefore10 "refused by 17: the same with too few entries lent"
    SpanAfter5 "refused by 5: the same with a bad record"
    SpanAfter6 "refused by 6: the same with a left-out kind"
    SpanAfter7 "refused by 7: the same in a file of a wrong shape"
    SpanAfterAddition "refused by 5: the same with an addition that has a string part and is recorded as a symbol"
}

/// The outcomes of document 01's handlers.
pub const OF_01: Range<usize> = 0..Hit::ConditionalUnflagged as usize;
/// Those of the conditional handler, and where a conditional stands.
pub const OF_CONDITIONALS: Range<usize> =
    Hit::ConditionalUnflagged as usize..Hit::ListedConsequent as usize;
/// Those whose ends tell which node gave a made one its place.
pub const OF_ENDS: Range<usize> = Hit::EndOfStart as usize..Hit::Version0 as usize;

/// Where one of the six of unknown symbol is read as none, by which of the six.
pub const IN_TEMPLATE: [Hit; 6] = [
    Hit::ChildVoid,
    Hit::ChildNot,
    Hit::ChildTypeof,
    Hit::ChildComparison,
    Hit::ChildTemplate,
    Hit::ChildAddition,
];
pub const DROPPED: [Hit; 6] = [
    Hit::RightVoid,
    Hit::RightNot,
    Hit::RightTypeof,
    Hit::RightComparison,
    Hit::RightTemplate,
    Hit::RightAddition,
];
pub const LISTED_CHILD: [Hit; 6] = [
    Hit::ListedChildVoid,
    Hit::ListedChildNot,
    Hit::ListedChildTypeof,
    Hit::ListedChildComparison,
    Hit::ListedChildTemplate,
    Hit::ListedChildAddition,
];
pub const LISTED_RIGHT: [Hit; 6] = [
    Hit::ListedSideVoid,
    Hit::ListedSideNot,
    Hit::ListedSideTypeof,
    Hit::ListedSideComparison,
    Hit::ListedSideTemplate,
    Hit::ListedSideAddition,
];
pub const LISTED_LEFT: [Hit; 5] = [
    Hit::ListedLeftVoid,
    Hit::ListedLeftNot,
    Hit::ListedLeftTypeof,
    Hit::ListedLeftComparison,
    Hit::ListedLeftTemplate,
];

/// Which of the six a node of unknown symbol is.
fn unknown<const W: usize>(tree: Tree<W>, i: usize) -> Option<Never> {
    let never = if tree.is_addition(i) {
        tree.has_string_part(i).then_some(Never::Addition)
    } else {
        never_symbol::by_head(tree.kind(i), tree.sub(i))
    };
    never.filter(|_| tree.symbol(i) == 0)
}

/// A call that is pure by document 01, and that tree-shake-only keeps before purity (02, N5).
pub fn is_called_function<const W: usize>(tree: Tree<W>, i: usize) -> bool {
    tree.kind(i) == kind::CALL && tree.is_pure_by_01(i) && !tree.is_pure(i)
}

/// How often each outcome was met.
pub struct Hits(Vec<u64>);

impl Default for Hits {
    fn default() -> Self {
        Hits(vec![0; HITS.len()])
    }
}

impl Hits {
    pub fn count(&self, hit: Hit) -> u64 {
        self.0[hit as usize]
    }

    pub fn add(&mut self, other: &Hits) {
        self.0.iter_mut().zip(&other.0).for_each(|(count, more)| *count += more);
    }

    /// The outcomes met fewer than `least` times.
    pub fn under(&self, least: u64) -> impl Iterator<Item = (&'static str, u64)> {
        HITS.iter().map(|&(hit, words)| (words, self.count(hit))).filter(move |&(_, n)| n < least)
    }

    pub fn hit(&mut self, hit: Hit) {
        self.0[hit as usize] += 1;
    }

    pub fn hit_if(&mut self, condition: bool, hit: Hit) {
        if condition {
            self.hit(hit);
        }
    }

    /// Counts a node that is read as no symbol, if one of the six of unknown symbol.
    pub fn hit_never<const W: usize>(&mut self, tree: Tree<W>, i: usize, hits: &[Hit]) {
        unknown(tree, i).into_iter().for_each(|never| self.hit(hits[never as usize]));
    }

    fn either(&mut self, condition: bool, yes: Hit, no: Hit) {
        self.hit(if condition { yes } else { no });
    }
}

/// The outcomes that reducing this tree comes to.
pub fn of_tree(tree: AnyVersion, marks: &Marks) -> Hits {
    match tree {
        AnyVersion::Version1(tree) => counted(tree, marks).hits,
        AnyVersion::Version2(tree) => counted(tree, marks).hits,
    }
}

/// The expressions and properties that reducing this tree comes to. The rest is kept or dropped with
/// a node above it.
pub fn reached(tree: AnyVersion, marks: &Marks) -> Vec<usize> {
    match tree {
        AnyVersion::Version1(tree) => counted(tree, marks).reached,
        AnyVersion::Version2(tree) => counted(tree, marks).reached,
    }
}

fn counted<'a, const W: usize>(tree: Tree<'a, W>, marks: &'a Marks) -> Counter<'a, W> {
    let mut counter = Counter { tree, marks, hits: Hits::default(), reached: Vec::new() };
    counter.expression(0);
    (0..tree.records.len()).for_each(|i| {
        counter.conditionals_under(i);
        counter.hits.hit_if(tree.is_addition(i) && tree.symbol(i) == 2, Hit::PlainAdditionYes);
    });
    counter
}

/// Goes where the reduction goes.
struct Counter<'a, const W: usize> {
    tree: Tree<'a, W>,
    marks: &'a Marks,
    hits: Hits,
    reached: Vec<usize>,
}

impl<const W: usize> Counter<'_, W> {
    fn expressions(&mut self, nodes: impl Iterator<Item = usize>) {
        for node in nodes {
            self.expression(node);
        }
    }

    fn expression(&mut self, i: usize) {
        self.reached.push(i);
        let kept = self.marks.is_kept(i);
        match self.tree.kind(i) {
            kind::STRING_LITERAL => self.hits.hit(Hit::LiteralRemoved),
            kind::IDENTIFIER => {
                self.hits.either(kept, Hit::IdentifierStays, Hit::IdentifierRemoved)
            }
            kind::FUNCTION => self.hits.either(kept, Hit::FunctionStays, Hit::FunctionRemoved),
            kind::ARROW => self.hits.either(kept, Hit::ArrowStays, Hit::ArrowRemoved),
            kind::OTHER_LEAF => self.hits.either(kept, Hit::OtherLeafStays, Hit::OtherLeafRemoved),
            kind::THIS => self.this(i),
            kind::ARRAY => self.array(i),
            kind::OBJECT => self.object(i),
            kind::TEMPLATE => self.template(i),
            kind::SEQUENCE => self.sequence(i),
            kind::UNARY => self.unary(i),
            kind::BINARY => self.binary(i),
            kind::CALL => self.call(i),
            kind::NEW => self.new_expression(i),
            kind::CONDITIONAL => self.conditional(i),
            _ => self.class(i),
        }
    }

    fn this(&mut self, i: usize) {
        self.hits.hit(match (self.marks.is_kept(i), self.tree.flagged(i)) {
            (false, true) => Hit::ThisRemovedFlagged,
            (false, false) => Hit::ThisRemovedUnflagged,
            (true, true) => Hit::ThisStaysFlagged,
            (true, false) => Hit::ThisStaysUnflagged,
        });
    }

    fn unary(&mut self, i: usize) {
        let kept = self.marks.is_kept(i);
        match self.tree.sub(i) {
            sub::OTHER_UNARY => {
                return self.hits.either(kept, Hit::OtherUnaryStays, Hit::OtherUnaryRemoved);
            }
            sub::VOID => self.hits.either(kept, Hit::VoidOne, Hit::VoidRemoved),
            sub::NOT => self.hits.either(kept, Hit::NotOne, Hit::NotRemoved),
            _ if self.tree.is_typeof_identifier(i) => {
                let flagged = self.tree.flagged(i + 1);
                let (yes, no) = (Hit::TypeofIdentifierFlagged, Hit::TypeofIdentifierUnflagged);
                return self.hits.either(flagged, yes, no);
            }
            _ => self.hits.either(kept, Hit::TypeofOne, Hit::TypeofRemoved),
        }
        self.expression(i + 1);
    }

    fn sequence(&mut self, i: usize) {
        let left = self.tree.children(i).filter(|&child| self.marks.is_kept(child)).count();
        self.hits.hit(match left {
            0 if self.tree.count(i) == 0 => Hit::SequenceEmpty,
            0 => Hit::SequenceRemoved,
            1 => Hit::SequenceOne,
            _ => Hit::SequenceSeveral,
        });
        self.expressions(self.tree.children(i));
    }

    fn array(&mut self, i: usize) {
        self.hits.hit(match self.marks.outcome(i) {
            Outcome::Removed if self.tree.count(i) == 0 => Hit::ArrayEmpty,
            Outcome::Removed => Hit::ArrayRemoved,
            Outcome::One => Hit::ArrayOne,
            Outcome::Several => Hit::ArraySeveral,
            _ => Hit::ArrayStays,
        });
        for child in self.tree.children(i) {
            match self.tree.kind(child) {
                kind::ELISION => self.hits.hit(Hit::ArrayElision),
                kind::SPREAD => self.hits.hit_if(!self.tree.flagged(child), Hit::ArraySpreadGoes),
                _ => self.expression(child),
            }
        }
    }

    fn template(&mut self, i: usize) {
        let tree = self.tree;
        if tree.count(i) == 0 {
            return self.hits.hit(Hit::TemplateEmpty);
        }
        if tree.template_stays(i) {
            return self.hits.hit(Hit::TemplateUnchanged);
        }
        let mut waiting = false;
        let mut any_reduced = false;
        for child in tree.children(i) {
            if tree.possible_symbol(child) {
                self.waiting_addition(child);
                waiting = true;
                continue;
            }
            self.hits.hit_never(tree, child, &IN_TEMPLATE);
            self.expression(child);
            let kept = self.marks.is_kept(child);
            any_reduced |= kept;
            self.hits.hit_if(waiting && kept, Hit::TemplateFlushedBefore);
            self.hits.hit_if(waiting && !kept, Hit::TemplateDroppedWhileWaiting);
            waiting &= !kept;
        }
        self.hits.hit_if(waiting, Hit::TemplateFlushedAtEnd);
        self.hits.hit(match self.marks.outcome(i) {
            Outcome::Removed => Hit::TemplateRemoved,
            Outcome::One if any_reduced => Hit::TemplateOneReduced,
            Outcome::One => Hit::TemplateOneMade,
            _ => Hit::TemplateSeveral,
        });
    }

    /// Of a template's child that waits: it is counted if it is an addition.
    fn waiting_addition(&mut self, i: usize) {
        let tree = self.tree;
        if tree.is_addition(i) {
            let right = tree.after(i + 1);
            let by_parts = tree.is_addition(right) && tree.has_string_part(right);
            self.hits.either(by_parts, Hit::ChildRightPart, Hit::ChildPlainAddition);
        }
    }

    fn object(&mut self, i: usize) {
        let tree = self.tree;
        let outcome = self.marks.outcome(i);
        self.hits.hit(match outcome {
            Outcome::Removed if tree.count(i) == 0 => Hit::ObjectEmpty,
            Outcome::Removed if tree.only_spreads(i) => Hit::ObjectSpreadsRemoved,
            Outcome::Removed => Hit::ObjectRemoved,
            Outcome::One => Hit::ObjectOne,
            Outcome::Several => Hit::ObjectSeveral,
            _ => Hit::ObjectSpreadsUnchanged,
        });
        if tree.only_spreads(i) {
            return;
        }
        let mut waiting = false;
        for child in tree.children(i) {
            if tree.kind(child) == kind::SPREAD {
                waiting = true;
                continue;
            }
            self.hits.hit_if(waiting, Hit::ObjectFlushedAtProperty);
            waiting = false;
            self.reached.push(child);
            let keyed = tree.sub(child) == sub::KEY_AND_VALUE;
            self.hits.hit_if(keyed && self.marks.is_kept(child + 1), Hit::ObjectKeyKept);
            self.expressions(tree.children(child));
        }
        self.hits.hit_if(waiting, Hit::ObjectFlushedAtEnd);
    }

    fn binary(&mut self, i: usize) {
        let kept = self.marks.is_kept(i);
        match self.tree.sub(i) {
            sub::COMPARISON => self.comparison(i),
            sub::ADDITION => self.addition(i),
            _ => self.hits.either(kept, Hit::OtherBinaryStays, Hit::OtherBinaryRemoved),
        }
    }

    fn comparison(&mut self, i: usize) {
        let (left, right) = (i + 1, self.tree.after(i + 1));
        let marks = self.marks;
        self.hits.hit(match (marks.is_kept(left), marks.is_kept(right)) {
            (false, false) => Hit::ComparisonRemoved,
            (true, false) => Hit::ComparisonLeft,
            (false, true) => Hit::ComparisonRight,
            (true, true) => match (marks.is_sequence(left), marks.is_sequence(right)) {
                (false, false) => Hit::JoinNeither,
                (true, false) => Hit::JoinLeft,
                (false, true) => Hit::JoinRight,
                (true, true) => Hit::JoinBoth,
            },
        });
        self.expressions(self.tree.children(i));
    }

    fn addition(&mut self, i: usize) {
        if self.tree.flagged(i) {
            self.dropped(i);
        }
        self.hits.hit(match self.marks.outcome(i) {
            Outcome::Removed if !self.tree.flagged(i) => Hit::AdditionUnflagged,
            Outcome::Removed => Hit::AdditionFolded,
            Outcome::One => Hit::AdditionGivesWay,
            Outcome::Stays => self.addition_that_stays(i),
            _ => Hit::AdditionUnchanged,
        });
    }

    /// The right sides that the fold of a chain drops.
    fn dropped(&mut self, i: usize) {
        let tree = self.tree;
        for addition in (i..).take_while(|&node| tree.is_addition(node)) {
            if self.marks.gives_way(addition) {
                self.hits.hit_never(tree, tree.after(addition + 1), &DROPPED);
            }
        }
    }

    fn addition_that_stays(&self, i: usize) -> Hit {
        let (tree, marks) = (self.tree, self.marks);
        let (left, right) = (i + 1, tree.after(i + 1));
        if !marks.is_string(tree, left) {
            return if tree.flagged(right) {
                Hit::AdditionRightAsIs
            } else {
                Hit::AdditionRightEmptied
            };
        }
        match marks.is_flagged(tree, left) {
            false => Hit::AdditionLeftEmptied,
            true if tree.is_addition(left) => Hit::AdditionLeftFolded,
            true => Hit::AdditionLeftAsIs,
        }
    }

    fn call(&mut self, i: usize) {
        let tree = self.tree;
        let (annotated, listed, summary) =
            (tree.facts(i) & 32 != 0, tree.facts(i) & 64 != 0, tree.facts(i) & 128 != 0);
        if !tree.is_pure(i) {
            if is_called_function(tree, i) {
                return self.called_function(i, annotated, listed);
            }
            let function = tree.is_preserved_iife(i);
            self.hits.hit_if(annotated, Hit::CallAnnotationsOff);
            self.hits.hit_if(annotated && function, Hit::CalledAnnotationsOff);
            self.hits.hit_if(summary, Hit::CallSummaryOfNoIdentifier);
            return self.hits.hit(match (tree.flagged(i), self.marks.is_kept(i)) {
                (true, _) => Hit::CallImpureStays,
                (false, true) => Hit::CallPreserved,
                (false, false) => Hit::CallImpureRemoved,
            });
        }
        self.hits.hit_if(annotated && !listed && !summary, Hit::CallAnnotated);
        self.hits.hit_if(!annotated && listed && !summary, Hit::CallListed);
        self.hits.hit_if(!annotated && !listed && summary, Hit::CallSummaryFree);
        let function = matches!(tree.kind(i + 1), kind::FUNCTION | kind::ARROW);
        self.hits.hit_if(function, Hit::CallPureFunction);
        self.hits.hit(match self.marks.outcome(i) {
            Outcome::Removed => Hit::CallRemoved,
            Outcome::One => Hit::CallOne,
            _ => Hit::CallSeveral,
        });
        self.arguments(i);
    }

    /// A call that tree-shake-only keeps before purity.
    fn called_function(&mut self, i: usize, annotated: bool, listed: bool) {
        let (tree, marks) = (self.tree, self.marks);
        self.hits.hit(match (annotated && tree.annotations(), listed) {
            (true, true) => Hit::CalledBoth,
            (true, false) => Hit::CalledAnnotated,
            _ => Hit::CalledListed,
        });
        let function = tree.kind(i + 1) == kind::FUNCTION;
        self.hits.either(function, Hit::CalledFunction, Hit::CalledArrow);
        self.hits.either(tree.flagged(i), Hit::CalledFlagged, Hit::CalledUnflagged);
        let changes = |argument: usize| marks.outcome(argument) != Outcome::Whole;
        let reducible = tree.children(i).skip(1).any(changes);
        self.hits.hit_if(reducible, Hit::CalledWithReducible);
    }

    fn new_expression(&mut self, i: usize) {
        let tree = self.tree;
        if !tree.is_pure(i) {
            let flagged = tree.flagged(i);
            return self.hits.either(flagged, Hit::NewImpureFlagged, Hit::NewImpureUnflagged);
        }
        self.hits.hit_if(tree.is_preserved_iife(i), Hit::NewPureFunction);
        self.hits.hit(match self.marks.outcome(i) {
            Outcome::Removed => Hit::NewRemoved,
            Outcome::One => Hit::NewOne,
            _ => Hit::NewSeveral,
        });
        self.arguments(i);
    }

    fn arguments(&mut self, i: usize) {
        for argument in self.tree.children(i).skip(1) {
            if self.tree.kind(argument) == kind::SPREAD {
                let flagged = self.tree.flagged(argument);
                self.hits.either(flagged, Hit::CallSpreadWrapped, Hit::CallSpreadGoes);
            } else {
                let called = is_called_function(self.tree, argument);
                self.hits.hit_if(called, Hit::CalledAsArgument);
                self.expression(argument);
            }
        }
    }

    fn class(&mut self, i: usize) {
        if self.tree.class_stays(i) {
            return self.class_that_stays(i);
        }
        let tree = self.tree;
        let flagged = |node: Option<usize>| node.is_some_and(|node| tree.flagged(node));
        let mut extracted = usize::from(flagged(tree.heritage(i)));
        self.hits.hit_if(extracted == 1, Hit::ClassHeritageExtracted);
        for e in tree.elements(i) {
            let (key, value) = (flagged(tree.computed_key(e)), tree.static_value(e).is_some());
            extracted += usize::from(key) + usize::from(value);
            self.hits.hit_if(key, Hit::ClassKeyExtracted);
            self.hits.hit_if(value, Hit::ClassValueExtracted);
            let has_value = tree.sub(e) & element::VALUE != 0;
            self.hits.hit_if(has_value && !value, Hit::ClassValueLeft);
        }
        self.hits.hit(match extracted {
            0 => Hit::ClassRemoved,
            1 => Hit::ClassOne,
            _ => Hit::ClassSeveral,
        });
    }

    /// Counted where there is one reason alone.
    fn class_that_stays(&mut self, i: usize) {
        let tree = self.tree;
        let any = |test: &dyn Fn(usize) -> bool| tree.elements(i).any(test);
        let arrow = tree.has_arrow_heritage(i);
        let direct = arrow && tree.kind(i + 1) == kind::ARROW;
        let reasons = [
            (tree.sub(i) & sub::CLASS_DECORATED != 0, Hit::ClassDecorated),
            (any(&|e| tree.sub(e) & element::DECORATED != 0), Hit::ClassElementDecorated),
            (any(&|e| tree.is_index_signature(e)), Hit::ClassIndexSignature),
            (any(&|e| tree.is_nonempty_block(e)), Hit::ClassBlock),
            (
                any(&|e| tree.static_value(e).is_some_and(|value| tree.flagged(value))),
                Hit::ClassStaticValue,
            ),
            (direct, Hit::ClassArrowHeritage),
            (arrow && !direct, Hit::ClassArrowLast),
        ];
        let mut met = reasons.into_iter().filter(|reason| reason.0);
        if let (Some((_, only)), None) = (met.next(), met.next()) {
            self.hits.hit(only);
        }
    }

    fn conditional(&mut self, i: usize) {
        let (tree, marks) = (self.tree, self.marks);
        if !tree.flagged(i) {
            return self.hits.hit(Hit::ConditionalUnflagged);
        }
        let [test, consequent, alternate] = tree.test_and_arms(i);
        let outcome = marks.outcome(i);
        self.hits.hit(match outcome {
            Outcome::Removed => Hit::ConditionalRemoved,
            Outcome::One => Hit::ConditionalTest,
            Outcome::Stays => Hit::ConditionalStays,
            _ if marks.is_kept(consequent) => Hit::ConditionalAnd,
            _ => Hit::ConditionalOr,
        });
        let changes = |node: usize| marks.outcome(node) != Outcome::Whole;
        let arm = if marks.is_kept(consequent) { consequent } else { alternate };
        match outcome {
            Outcome::Stays => {
                self.hits.hit_if(changes(test), Hit::ConditionalTestStays);
                let arms = changes(consequent) || changes(alternate);
                self.hits.hit_if(arms, Hit::ConditionalArmReduced);
            }
            Outcome::Logical => {
                self.hits.hit_if(changes(test), Hit::ConditionalTestJoined);
                let flagged = tree.flagged(test) || tree.flagged(arm) || changes(arm);
                self.hits.hit_if(!flagged, Hit::ConditionalJoinedUnflagged);
            }
            _ => self.expression(test),
        }
        self.expression(consequent);
        self.expression(alternate);
    }

    /// Where conditionals stand under a node, whether the reduction comes there or not.
    fn conditionals_under(&mut self, i: usize) {
        let tree = self.tree;
        for (at, child) in tree.children(i).enumerate() {
            if tree.kind(child) == kind::CONDITIONAL {
                let stands = self.stands(i, at, child);
                stands.into_iter().for_each(|hit| self.hits.hit(hit));
            }
        }
    }

    fn stands(&self, i: usize, at: usize, child: usize) -> Option<Hit> {
        let tree = self.tree;
        Some(match (tree.kind(i), at) {
            (kind::CONDITIONAL, 0) => Hit::ConditionalAsTest,
            (kind::CONDITIONAL, _) => Hit::ConditionalAsArm,
            (kind::CALL | kind::NEW, 0) => Hit::ConditionalAsCallee,
            (kind::CALL | kind::NEW, _) => Hit::ConditionalAsArgument,
            (kind::CLASS, _) => Hit::ConditionalAsHeritage,
            (kind::PROPERTY, 0) if tree.sub(i) == sub::KEY_AND_VALUE => Hit::ConditionalAsObjectKey,
            (kind::PROPERTY, _) => Hit::ConditionalAsValue,
            (kind::ELEMENT, _) if tree.computed_key(i) == Some(child) => Hit::ConditionalAsClassKey,
            (kind::ELEMENT, _) if tree.static_value(i) == Some(child) => {
                Hit::ConditionalAsStaticValue
            }
            (kind::SPREAD, _) => Hit::ConditionalAsSpread,
            (kind::TEMPLATE, _) => Hit::ConditionalAsTemplateChild,
            (kind::BINARY, 0) if tree.is_addition(i) => Hit::ConditionalAsLeft,
            (kind::BINARY, _) if tree.is_addition(i) => Hit::ConditionalAsRight,
            _ => return None,
        })
    }
}
