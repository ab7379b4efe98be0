//! Wrong readings of documents 01 and 02 that the second reader can be given.

crate::slips! {
    /// Every slip.
    ALL {
        /// A file of 49,914 bytes is refused as 1.
        LongestFileRefused,
        /// A file of 49,915 bytes is not refused as 1.
        LongestFileByOneMore,
        /// 2 is tested before 1.
        WorkBeforeLength,
        /// 2 is tested when the file has been read.
        WorkAfterFile,
        /// A work buffer of 65,535 bytes is accepted.
        WorkByOneLess,
        /// A work buffer of 65,536 bytes is refused as 2.
        WorkByOneMore,
        /// A refusal leaves the work buffer as it was.
        RefusalLeavesWork,
        /// An accepted file leaves the work buffer as it was.
        AcceptedLeavesWork,
        /// The whole work buffer is cleared.
        ClearsAllOfWork,
        /// The last of the bytes to be cleared is not.
        ClearsOneByteLess,
        /// 1 and 2 clear the work buffer too.
        ClearsAfterOneAndTwo,
        /// A line that the file's end cuts is 3.
        CutLineAs3,
        /// An empty remainder where a line is due is 4.
        EmptyRemainderAs4,
        /// The last end byte may be missing.
        LastEndByteMissingAccepted,
        /// Any letter is accepted.
        LetterNotTested,
        /// A letter of the lower case is accepted.
        SmallLetterAccepted,
        /// CR is accepted before the end byte.
        CrAccepted,
        /// A tab is accepted in the place of a space.
        TabAccepted,
        /// NUL is accepted in the place of a space.
        NulAccepted,
        /// Zeros before a number are refused: `000012` is 4, and of zeros alone only a single one is 0.
        LeadingZeroRefused,
        /// A number with a zero before it is octal, `000012` is 10; with an 8 or a 9 in it, it is 4.
        LeadingZeroOctal,
        /// Spaces are accepted between zeros and the digits after them: `0   12` is 12.
        SpaceAfterZeroAccepted,
        /// Spaces are accepted between zeros where no other digit follows: `   0 0` is 0.
        SpaceBetweenZerosAccepted,
        /// A field of seven digits is accepted: it takes one column more, and its line has a byte more.
        SevenDigitsAccepted,
        /// A field of spaces is 0.
        EmptyFieldAccepted,
        /// Spaces are accepted after a number.
        SpaceAfterNumberAccepted,
        /// A sign is accepted before a number.
        PlusAccepted,
        /// The byte after the digits, `:`, is a digit.
        ColonAccepted,
        /// The byte before the digits, `/`, is a digit.
        SlashAccepted,
        /// A byte between the last field and the end byte is accepted.
        ByteAfterFieldsAccepted,
        /// A line may have a field more.
        ExtraFieldAccepted,
        /// A number of more than 16 bits is 4.
        LargeNumberAs4,
        /// 65,536 + x is taken for x.
        NumberCutTo16Bits,
        /// The nodes of an edge are cut to 8 bits.
        NodeIndexCutTo8Bits,
        /// A state or final mark is cut to 8 bits.
        StateCutTo8Bits,
        /// Each field's number is tested before the next field's form.
        FieldByField,
        /// The form of all lines is tested before the numbers of R, P and F lines.
        FormOfAllLinesFirst,
        /// 7 is tested before 6.
        NodesBeforeRule,
        /// 8 is tested before 7.
        EdgesBeforeNodes,
        /// 10 is tested before 9.
        EntryBeforeBytes,
        /// 10 is tested at the end of the P lines.
        EntryBeforeEdges,
        /// S = 0 is accepted.
        NoStatesAccepted,
        /// S = 17 is accepted.
        SeventeenStatesAccepted,
        /// A = 0 is accepted.
        NoSymbolsAccepted,
        /// A = 17 is accepted.
        SeventeenSymbolsAccepted,
        /// N = 0 is accepted.
        NoNodesAccepted,
        /// N = 513 is accepted.
        NodesByOneMoreAccepted,
        /// E = 0 is refused.
        NoEdgesRefused,
        /// E = 2,049 is accepted.
        EdgesByOneMoreAccepted,
        /// R lines may stand in any order.
        StateOrderNotTested,
        /// A final mark of 2 is accepted.
        FinalMark2Accepted,
        /// A next state of S is accepted.
        NextStateOfStatesAccepted,
        /// A job without a final state is refused.
        NoFinalRefused,
        /// P lines may stand in any order.
        NodeOrderNotTested,
        /// Kind 3 is refused.
        Kind3Refused,
        /// Kind 4 is accepted.
        Kind4Accepted,
        /// A value that is not 0 is accepted at kind 0.
        ValueAtPlainAccepted,
        /// A symbol of A is accepted.
        SymbolOfSymbolsAccepted,
        /// A call set that names a symbol of A is accepted.
        CallSetPastSymbolsAccepted,
        /// A call set of 0 is refused.
        EmptyCallSetRefused,
        /// The set of a call that may come back in is accepted where it names a symbol of A.
        ReentrantSetPastSymbolsAccepted,
        /// A set of 0 is refused at a call that may come back in.
        EmptyReentrantSetRefused,
        /// The value of a call that may come back in is a symbol, and no set.
        ReentrantValueIsSymbol,
        /// An entry set that names a state of S is accepted.
        EntrySetPastStatesAccepted,
        /// An entry set is held against A.
        EntrySetOfSymbols,
        /// An exit mark of 2 is accepted.
        ExitMark2Accepted,
        /// An after set without exit is accepted.
        AfterSetWithoutExitAccepted,
        /// An after set that names a symbol of A is accepted.
        AfterSetPastSymbolsAccepted,
        /// An exit with after set 0 is refused.
        EmptyAfterSetRefused,
        /// An exit that is an entry is refused.
        EntryAtExitRefused,
        /// An edge from node N is accepted.
        FromNodeOfNodesAccepted,
        /// An edge to node N is accepted.
        ToNodeOfNodesAccepted,
        /// An edge from a node to itself is refused.
        SelfEdgeRefused,
        /// An edge that is the one before is accepted.
        EqualEdgeAccepted,
        /// Edges may stand in any order.
        EdgeOrderNotTested,
        /// Edges ascend by from alone.
        EdgeOrderByFromAlone,
        /// Edges ascend by to, then from.
        EdgeOrderByToFirst,
        /// The first edge must be above 0 to 0.
        FirstEdgeHeldAgainstZero,
        /// Bytes after the last line are accepted.
        BytesAfterAccepted,
        /// A line end after the last line is accepted.
        EmptyLineAfterAccepted,
        /// A job without entry is accepted.
        NoEntryAccepted,
    }
}
