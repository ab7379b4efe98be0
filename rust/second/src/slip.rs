//! Wrong readings of documents 01 and 02 that the second implementation can be given.

/// Declares the slips, with a list for each group of them. Names and comments are kept, to be shown.
#[macro_export]
macro_rules! slips {
    ($($(#[doc = $about:literal])* $group:ident { $($(#[doc = $words:literal])* $name:ident,)* })*) => {
        /// A wrong reading of document 01 or 02.
        #[derive(Clone, Copy, Debug, PartialEq, Eq)]
        pub enum Slip {
            $($($(#[doc = $words])* $name,)*)*
        }

        impl Slip {
            $($(#[doc = $about])* pub const $group: &[Slip] = &[$(Slip::$name,)*];)*

            /// The groups in words, each with the names of its slips and what these take for right.
            pub const IN_WORDS: &[(&str, &[(&str, &str)])] = &[
                $((concat!($($about),*), &[$((stringify!($name), concat!($($words),*)),)*]),)*
            ];

            /// The slip that has this name.
            pub fn named(name: &str) -> Option<Slip> {
                let mut all = [$(Slip::$group,)*].into_iter().flatten();
                all.find(|slip| format!("{slip:?}") == name).copied()
            }
        }
    };
}

impl Slip {
    /// The slips that the plan check can make.
    pub fn of_check() -> Vec<Slip> {
        [Slip::WALKS, Slip::BUFFERS, Slip::PLANS, Slip::CHECK].concat()
    }

    /// The slips that pricing by the house table can make.
    pub fn of_pricing() -> Vec<Slip> {
        [Slip::PLANS, Slip::PRICES, Slip::VOLUMES, Slip::HOUSE].concat()
    }

    /// The slips that pricing by a price file can make.
    pub fn of_pricing_by() -> Vec<Slip> {
        [Slip::PLANS, Slip::PRICES, Slip::VOLUMES, Slip::PRICE_FILE].concat()
    }

    /// The slips that taking the rule of a job can make.
    pub fn of_rule() -> Vec<Slip> {
        [Slip::BUFFERS, Slip::RULE_BUFFER, Slip::RULE].concat()
    }

    /// The slips that making a rule from rows can make.
    pub fn of_rows() -> Vec<Slip> {
        [
            Slip::RULE_BUFFER,
            Slip::ROWS_ORDER,
            Slip::ROWS_GIVEN,
            Slip::ROWS_TEXT,
            Slip::ROWS_PAIRS,
        ]
        .concat()
    }

    /// The slips that making a rule from an expression can make.
    pub fn of_expression() -> Vec<Slip> {
        [
            Slip::RULE_BUFFER,
            Slip::EXPRESSION_ORDER,
            Slip::EXPRESSION_GIVEN,
            Slip::EXPRESSION_GRAMMAR,
            Slip::EXPRESSION_WORDS,
            Slip::EXPRESSION_STATES,
        ]
        .concat()
    }

    /// The slips that the calls on edges can make.
    pub fn of_edges() -> Vec<Slip> {
        [Slip::EDGES_GIVEN, Slip::EDGES_LENT, Slip::EDGES_LEFT].concat()
    }

    /// The slips that planning and listing can make.
    pub fn of_planning() -> Vec<Slip> {
        [
            Slip::WALKS,
            Slip::BUFFERS,
            Slip::PLANNING,
            Slip::FOUND,
            Slip::LENT,
        ]
        .concat()
    }
}

slips! {
    /// Slips of monitors, walks and the search.
    WALKS {
        // the monitors
        /// A monitor that was in a final state before gives no alarm.
        FinalToFinalQuiet,
        /// An alarm of the planned monitor alone is no difference.
        AddedAlarmIgnored,
        /// An alarm of the full monitor alone is no difference.
        MissedAlarmIgnored,
        /// The event of an unwatched point moves the planned monitor, without an alarm.
        UnwatchedPointMoves,
        /// The full monitor skips unwatched points too.
        FullSkipsToo,
        /// The planned monitor skips the words of calls.
        CallWordSkipped,
        /// The planned monitor skips the words after exits.
        AfterWordSkipped,
        /// The plan's byte is that of the node before, and for node 0 that of the last.
        PlanByteOfNodeBefore,

        // where walks begin
        /// Of an entry set the lowest state alone is admitted.
        LowestStartOnly,
        /// The first entry alone is one.
        FirstEntryOnly,
        /// A walk begins before any node.
        EveryNodeEntered,
        /// A walk begins past an entry's own events.
        EntryPassed,

        // the words of calls
        /// A call word has at most one symbol.
        CallWordOfOneSymbol,
        /// A call word is not empty.
        EmptyCallWordNotAllowed,
        /// A call word is empty.
        CallWordNotSearched,
        /// The highest symbol of a call set is left out.
        HighestCallSymbolLeftOut,
        /// A call of kind 2 may come back into this procedure at any entry.
        CallComesBack,

        // calls that may come back in
        /// Kind 3 is a call as kind 2 is.
        ReentrantAsCall,
        /// No walk comes in again.
        NeverComesIn,
        /// A walk comes in again only in a state that the entry admits.
        ComesInWhereAdmitted,
        /// A walk comes in again at the first entry alone.
        ComesInAtFirstEntry,
        /// A call comes in again at itself alone, where it is an entry.
        ComesInAtItself,
        /// A walk comes in again before the call's word, and not after it.
        ComesInBeforeWord,
        /// A walk comes in again past the entry's own events.
        ComesInPastEntry,
        /// No walk returns.
        NeverReturns,
        /// A walk returns only to the call from which it came in last, and only once.
        ReturnsToCallerOnly,
        /// A walk returns to the first call that may come back in alone.
        ReturnsToFirstCall,
        /// A walk returns to calls of kind 2, too.
        ReturnsToEveryCall,
        /// A walk returns past the call's word.
        ReturnsPastWord,
        /// A walk does not return after an empty word after an exit.
        EmptyAfterWordStays,
        /// A walk returns only after an empty word after an exit.
        AfterWordStays,
        /// A walk returns from any node.
        ReturnsFromEveryNode,

        // edges and the words after exits
        /// After an exit no edge is taken.
        ExitTakesNoEdge,
        /// A walk ends only at an exit without an edge.
        ExitWithEdgeDoesNotEnd,
        /// A word after an exit is empty.
        AfterWordNotSearched,
        /// A word after an exit has at most one symbol.
        AfterWordOfOneSymbol,
        /// An edge may be taken out of a word after an exit.
        AfterWordTakesEdge,
        /// A walk may end at an exit without the exit's own events.
        ExitBeforeOwnEvents,
        /// The word after an exit that is a call comes in place of the call's word.
        AfterWordForCallWord,
        /// An edge to an entry is not taken.
        EdgeToEntryIgnored,
        /// An edge is taken either way.
        EdgesBothWays,
        /// An edge from a node to itself is not taken.
        EdgeToItselfIgnored,

        // the search
        /// A walk has at most as many events as there are nodes.
        EventsAsManyAsNodes,
        /// A place and full state met before are not looked at again with another planned state.
        VisitedWithoutPlanned,
        /// A place is looked at once.
        VisitedPlaceOnly,
        /// A difference counts only where an exit can still be reached.
        OnlyWalksThatReachAnExit,
    }

    /// Slips of the order of refusals and of the work buffer, in any call.
    BUFFERS {
        /// 2 is tested before 1.
        WorkBeforeLength,
        /// 2 is tested when the file has been read.
        WorkAfterFile,
        /// 1 and 2 clear the work buffer.
        ClearsAfterOneAndTwo,
        /// The bytes past 65,536 are cleared too.
        ClearsAllOfWork,
    }

    /// Slips of the refusals of plans, which the plan check and pricing have.
    PLANS {
        /// A plan byte above 1 is refused before the file is looked at.
        PlanBytesBeforeFile,
        /// 12 is tested before 11.
        PlanBytesBeforeLength,
        /// A plan longer than N bytes is taken by its first N.
        LongerPlanAccepted,
        /// Bytes that a plan lacks are 0.
        ShorterPlanAccepted,
        /// A plan byte above 1 is taken as 1.
        PlanByteAboveOneAccepted,
        /// A plan byte 1 at a node that is no event is accepted.
        PlanByteAtOtherNodeAccepted,
        /// A plan byte 1 at a call that may come back in is accepted.
        PlanByteAtReentrantAccepted,
        /// The last plan byte is not tested.
        LastPlanByteNotTested,
    }

    /// Slips of what the plan check leaves.
    CHECK {
        /// Refusals 11 and 12 leave the work buffer as it is.
        PlanRefusalLeavesWork,
        /// The answer different leaves the work buffer as it is.
        DifferentLeavesWork,
        /// Refusal 1 clears a work buffer of more than 65,536 bytes, to its end.
        CheckOfLongFileClearsRest,
        /// Refusals 3 to 10 clear the bytes past 65,536 too.
        CheckOfNoJobClearsRest,
        /// Refusals 11 and 12 clear the bytes past 65,536 too.
        PlanRefusalClearsRest,
    }

    /// Slips of prices, of what counts, and of cents.
    PRICES {
        // cents
        /// A part of a cent is left out.
        RoundedDown,
        /// Half a cent or more counts as a cent, and less is left out.
        RoundedToNearest,
        /// A cent is added to whole cents, too.
        WholeCentsRaised,
        /// A part of a cent counts as a cent at each point.
        RoundedPerPoint,
        /// The sum is cut to 32 bits.
        SumCutTo32Bits,

        // what counts
        /// Unwatched points count, too.
        UnwatchedCounted,
        /// Calls of either kind count, too, as symbol 0.
        CallsCounted,
        /// Plain nodes count, too, as symbol 0.
        PlainNodesCounted,
        /// The last node does not count.
        LastNodeNotCounted,

        // prices
        /// Every symbol costs what symbol 0 does.
        OnePrice,
        /// The price goes by the node's number, and not by its symbol; after sixteen nodes it begins again.
        PriceByNode,
    }

    /// Slips of the house table.
    HOUSE {
        /// Symbol s costs 25 + 5 s.
        HouseFrom25,
    }

    /// Slips of the volume file and of the place of its refusal.
    VOLUMES {
        /// 16 is tested before 12.
        VolumesBeforePlanBytes,
        /// 16 is tested before 11.
        VolumesBeforePlan,
        /// A volume file of more than 49,914 bytes is 1.
        LongVolumesAs1,
        /// Where a V line is due and the file ends it is 3, and where the line has not its form 4.
        VolumesAs3And4,
        /// The last V line may be missing; its volume is 0.
        LastVolumeMissingAccepted,
        /// The last end byte may be missing.
        VolumeEndByteMissingAccepted,
        /// Bytes after the last V line are accepted.
        BytesAfterVolumesAccepted,
        /// Any letter is accepted.
        VolumeLetterNotTested,
        /// V lines may stand in any order.
        VolumePlacesNotTested,
        /// Zeros before a number are refused.
        VolumeZerosRefused,
        /// Of a volume the lowest 16 bits count.
        VolumeCutTo16Bits,
        /// A volume of 999,999 is refused.
        MostVolumeRefused,
        /// A volume of 0 is refused.
        NoVolumeRefused,
        /// A volume at a plain node is refused, where it is not 0.
        VolumeAtPlainRefused,
        /// V lines stand for points only.
        VolumesOfPointsOnly,
        /// V lines of nodes that are not watched are not looked at.
        UnwatchedVolumeNotTested,
    }

    /// Slips of the price file, of the place of its refusal, and of its prices.
    PRICE_FILE {
        // its refusal
        /// 28 is tested before 16.
        PricesBeforeVolumes,
        /// 28 is tested before 12.
        PricesBeforePlanBytes,
        /// 28 is tested before the job file is looked at.
        PricesBeforeJob,
        /// A price file of more than 49,914 bytes is 1.
        LongPricesAs1,
        /// Where a B line is due and the file ends it is 3, and where the line has not its form 4.
        PricesAs3And4,
        /// The house table counts where the price file is to be refused.
        HouseWherePricesAreWrong,

        // its lines
        /// The last B line may be missing; its price is 0.
        LastPriceMissingAccepted,
        /// The last end byte may be missing.
        PriceEndByteMissingAccepted,
        /// Bytes after the last B line are accepted.
        BytesAfterPricesAccepted,
        /// Any letter is accepted.
        PriceLetterNotTested,
        /// B lines may stand in any order.
        PricePlacesNotTested,
        /// Zeros before a number are refused.
        PriceZerosRefused,
        /// A price of 10,000 is accepted.
        PriceOf10000Accepted,
        /// A price of 9,999 is refused.
        MostPriceRefused,
        /// A price of 0 is refused.
        FreeSymbolRefused,
        /// B lines stand for the symbols of the job only.
        PricesOfJobSymbolsOnly,

        // its prices
        /// The price file is tested, and the house table counts.
        HouseCounted,
        /// Symbol 0 costs what it does by the house table.
        FirstPriceOfHouse,
        /// Symbol 15 costs what it does by the house table.
        LastPriceOfHouse,
        /// Of a price the lowest 8 bits count.
        PriceCutTo8Bits,
        /// Of a price the last three digits count.
        PriceCutTo3Digits,
        /// The cents are cut to 32 bits.
        CentsCutTo32Bits,
    }

    /// Slips of passes, tries and counts.
    PLANNING {
        /// The first pass is the only one.
        OnePassOnly,
        /// Passes after the first are counted and make no point unwatched.
        LaterPassesOnlyCounted,
        /// There are at most two passes.
        TwoPassesAtMost,
        /// A pass goes through the points in falling order.
        FallingOrder,
        /// The pass that changes nothing is not counted.
        LastPassNotCounted,
        /// A pass begins again at the first point when one has gone.
        PassBeginsAgain,
        /// Each point is tried with all others watched, and all that may go alone go.
        TriedAlone,
        /// All points with nop mark 1 go together.
        NopPointsRemovedTogether,
        /// A point with nop mark 0 is not tried.
        NopMarkDecides,
        /// A plan that watches one point more than a faithful one is taken as faithful.
        WatchingMoreIsFaithful,
        /// A point that no walk reaches stays watched.
        UnreachedStaysWatched,
        /// Every point stays watched.
        NothingRemoved,
        /// No point stays watched.
        EverythingRemoved,
        /// The last point is not tried.
        LastPointNotTried,
        /// The counts of event nodes and of watched points are swapped.
        CountsSwapped,
        /// Every node is counted among the event nodes.
        EveryNodeCounted,
        /// Calls that may come back in are counted among the event nodes.
        ReentrantCounted,
        /// The watched total is that after the first pass.
        WatchedAfterPassOne,
        /// The watched total is that from before the last pass that removed a point.
        WatchedBeforeLastRemoval,
        /// The watched total starts from N, the count of all nodes.
        TotalStartsFromAllNodes,
        /// The watched total is lowered where a point stays, too.
        LoweredWherePointStays,
        /// The watched total is not lowered where a point goes.
        NotLoweredWherePointGoes,
        /// The watched total is lowered at nodes that are no points, too.
        LoweredAtOtherNodes,
    }

    /// Slips of what is found at a point, and of its line.
    FOUND {
        /// The before set is that of the monitor under the plan.
        BeforeUnderPlan,
        /// The before set has the states past the point.
        BeforePastPoint,
        /// The before set has the admitted states alone at an entry.
        BeforeOfEntryAdmittedOnly,
        /// Only states in which some walk arrives past the point are counted in classes.
        ClassesOfReachedOnly,
        /// States are of one class by the monitors under the plan.
        ClassesUnderPlan,
        /// Classes are those before the point.
        ClassesBeforePoint,
        /// A class of one state is not counted.
        ClassesOfSeveralOnly,
        /// The nop mark asks nothing of the next state's being final.
        NopThoughFinal,
        /// The nop mark lets the next state be final where the state is final too.
        NopFinalToFinal,
        /// The nop mark asks that the next state is the state itself.
        NopSameStateOnly,
        /// The nop mark is asked of every state.
        NopOfEveryState,
        /// The nop mark is 1 when some state of the before set has what it asks.
        NopOfSomeState,
        /// An empty before set gives nop mark 0.
        NopOfUnreachedIsZero,
        /// A W line has the nop mark where the watched mark is due, and the watched mark before it.
        MarksSwapped,
        /// W lines stand for the watched points only.
        WatchedLinesOnly,
    }

    /// Slips of the plan and listing buffers.
    LENT {
        /// A plan buffer is long enough with N bytes, and a listing buffer when the text fits.
        ShorterLentAccepted,
        /// A plan or listing buffer is tested when the file has been read.
        LentAfterFile,
        /// 2 for a plan or listing buffer is tested before 1.
        LentBeforeLength,
        /// The plan or listing buffer is cleared past what is written.
        LentClearedPastText,
        /// A refusal by what the file holds clears the plan or listing buffer.
        RefusalClearsLent,
        /// Refusals by what the file holds leave the work buffer as it is.
        FileRefusalLeavesWork,
        /// Accepted planning leaves the work buffer as it is.
        AcceptedLeavesWork,
        /// Refusal 1 clears a work buffer of more than 65,536 bytes, to its end.
        LongFileClearsRest,
        /// Refusal 2 for a plan or listing buffer clears a work buffer of more than 65,536 bytes, to its end.
        ShortLentClearsRest,
        /// Refusals by what the file holds clear the bytes past 65,536 too.
        FileRefusalClearsRest,
        /// The bytes of nodes that are no points are not written.
        OtherNodesNotWritten,
    }

    /// Slips of the rule buffer, in all calls that write to it.
    RULE_BUFFER {
        // its length
        /// A rule buffer of another length is 2.
        RuleAsBuffer,
        /// A rule buffer of another length is 15.
        RuleAsRecord,
        /// A rule buffer of more than 256 bytes is accepted, and its first 256 are written.
        LongerRuleAccepted,
        /// A rule buffer of less than 256 bytes is accepted, and written to its end.
        ShorterRuleAccepted,
        /// Of the rule buffer's length the lowest 8 bits are tested.
        RuleLengthCutTo8Bits,
        /// Of the rule buffer's length the lowest 16 bits are tested.
        RuleLengthCutTo16Bits,

        // the table
        /// The table stands in column order.
        ColumnsForTableRows,
        /// A row has as many places as there are symbols.
        RowsOfSymbolsOnly,
        /// A row has fifteen places.
        RowsOfFifteen,
        /// The row of the last state is as it was.
        LastStateNotWritten,
        /// The column of the last symbol is as it was.
        LastSymbolNotWritten,
        /// Next states are counted from 1.
        NextStatesFromOne,
        /// Cells past the states or the symbols are as they were.
        CellsPastLeft,
        /// Cells past the states are as they were.
        RowsPastLeft,
        /// Cells past the symbols are as they were, in the rows of states.
        ColumnsPastLeft,
        /// Cells past the states or the symbols are 255.
        CellsPastAreOfNoState,
        /// Cells past the states or the symbols lead back to their row.
        CellsPastAreStates,

        // what is left
        /// A refusal clears the rule buffer.
        RefusalClearsRule,
        /// Refusal 13 writes as much of the rule as fits.
        WrongLengthWritten,
    }

    /// Slips of the rule that is taken from a job.
    RULE {
        // the place of 13
        /// 13 is tested before 1.
        RuleBeforeLength,
        /// 13 is tested before 2.
        RuleBeforeWork,
        /// 13 is tested before 3 to 10.
        RuleBeforeFile,
        /// 13 is tested before 10.
        RuleBeforeEntry,

        // its numbers
        /// The counts of states and symbols are swapped.
        StatesAndSymbolsSwapped,
        /// The final set and the count of symbols are swapped.
        FinalsBeforeSymbols,
        /// Of both counts the lowest 4 bits are there, so that 16 is 0.
        CountsCutTo4Bits,
        /// Bit q + 1 of the final set stands for state q.
        FinalsShifted,
        /// The lowest bit of the final set stands for the last state.
        FinalsFromTheHighest,
        /// The last state is not in the final set.
        LastFinalLeftOut,
        /// The final set has the states that are not final.
        OthersFinal,

        // what is left
        /// A refusal by what the file holds clears the rule.
        FileRefusalClearsRule,
        /// Refusal 2 writes the rule.
        ShortWorkWritesRule,
        /// Refusals by what the file holds leave the work buffer as it is.
        RuleOfNoJobLeavesWork,
        /// Refusal 13 leaves the work buffer as it is.
        WrongLengthLeavesWork,
        /// An accepted call leaves the work buffer as it is.
        TakenRuleLeavesWork,
        /// Refusal 1 clears a work buffer of more than 65,536 bytes, to its end.
        RuleOfLongFileClearsRest,
        /// Refusals by what the file holds clear the bytes past 65,536 too.
        RuleOfNoJobClearsRest,
        /// Refusal 13 clears the bytes past 65,536 too.
        WrongLengthClearsRest,
    }

    /// Slips of the order of refusals of rule rows, of the number of an accepted call, and of what a refusal leaves.
    ROWS_ORDER {
        /// 13 is tested after 17.
        RuleLengthAfterRows,
        /// 13 is tested after 17, 18 and 19.
        RuleLengthLast,
        /// 18 of two rows is answered before the rows after them are looked at.
        TwiceBeforeLaterRows,
        /// 19 is tested before 18.
        NoneBeforeTwice,
        /// An empty text is 19 whatever S, A and the final set are.
        NoRowsBeforeGiven,
        /// The number has the states times 2^32, the symbols times 2^16 and the final set in it.
        MadeWithSizes,
        /// The number has the count of rows in it.
        MadeWithRowCount,
        /// Refusal 18 writes the rule, as the last row of each pair has it.
        TwiceWritten,
        /// Refusal 19 writes the rule, a pair without a row as 0.
        NoneWritten,
        /// Refusal 17 writes the cells of the rows before the one that is refused.
        RowsBeforeFaultWritten,
    }

    /// Slips of S, A and the final set that are given with rule rows.
    ROWS_GIVEN {
        /// Of S the lowest 8 bits count.
        GivenStatesCutTo8Bits,
        /// Of S the lowest 16 bits count.
        GivenStatesCutTo16Bits,
        /// Of S the lowest 32 bits count.
        GivenStatesCutTo32Bits,
        /// Of A the lowest 8 bits count.
        GivenSymbolsCutTo8Bits,
        /// Of A the lowest 16 bits count.
        GivenSymbolsCutTo16Bits,
        /// Of A the lowest 32 bits count.
        GivenSymbolsCutTo32Bits,
        /// Of the final set the lowest 8 bits count.
        GivenFinalsCutTo8Bits,
        /// Of the final set the lowest 16 bits count.
        GivenFinalsCutTo16Bits,
        /// Of the final set the lowest 32 bits count.
        GivenFinalsCutTo32Bits,
        /// S = 0 is accepted.
        NoGivenStatesAccepted,
        /// S = 16 is refused.
        SixteenGivenStatesRefused,
        /// S = 17 is accepted.
        SeventeenGivenStatesAccepted,
        /// A = 0 is accepted.
        NoGivenSymbolsAccepted,
        /// A = 16 is refused.
        SixteenGivenSymbolsRefused,
        /// A = 17 is accepted.
        SeventeenGivenSymbolsAccepted,
        /// A final state of S or more is accepted.
        GivenFinalsNotTested,
        /// A final state of S is accepted.
        GivenFinalOfStatesAccepted,
        /// A final state below 16 is accepted, whatever S is.
        GivenFinalsTestedFrom16,
        /// The final set is held against A.
        GivenFinalsHeldAgainstSymbols,
        /// A final set without a state is refused.
        NoGivenFinalRefused,
    }

    /// Slips of the text of rule rows, and of a row's form and numbers.
    ROWS_TEXT {
        // its length
        /// A text of 8,192 bytes is refused.
        LongestTextRefused,
        /// A text of 257 rows is read.
        Row257Read,
        /// A text of any length is read.
        TextOfAnyLengthRead,
        /// Of a longer text the first 8,192 bytes are read.
        LongTextCut,
        /// Of the text's length the lowest 16 bits count.
        TextLengthCutTo16Bits,
        /// A text without a row is 17.
        NoRowsAs17,

        // a row's form
        /// A row that has not its form is 4.
        RowFormAs4,
        /// Less bytes than a row has are not looked at, after the last row.
        BytesAfterRowsAccepted,
        /// An empty line is no row, and accepted.
        EmptyLinesAccepted,
        /// The last end byte may be missing.
        RowEndByteMissingAccepted,
        /// CR is accepted before the end byte.
        RowCrAccepted,
        /// Any letter is accepted.
        RowLetterNotTested,
        /// The letter q is accepted.
        SmallRowLetterAccepted,
        /// Zeros before a number are refused.
        RowZerosRefused,
        /// A number with a zero before it is octal.
        RowZerosOctal,
        /// Spaces are accepted between zeros and the digits after them.
        RowZeroBeforeSpaceAccepted,
        /// A tab is accepted in the place of a space.
        RowTabAccepted,
        /// A field of spaces is 0.
        RowEmptyFieldAccepted,

        // a row's numbers
        /// Of a number the lowest 8 bits count.
        RowNumbersCutTo8Bits,
        /// 65,536 + x is taken for x.
        RowNumbersCutTo16Bits,
        /// A row has its symbols before its states.
        SymbolsBeforeStates,
        /// A row has its next state first.
        NextStateFirst,
        /// States are held against A, and symbols against S.
        RowLimitsSwapped,
        /// A last state of S is accepted.
        LastRowStateOfStatesAccepted,
        /// A last symbol of A is accepted.
        LastRowSymbolOfSymbolsAccepted,
        /// A next state of S is accepted.
        RowNextOfStatesAccepted,
        /// A next state is held against A.
        RowNextHeldAgainstSymbols,
        /// A next state is not tested, up to 255.
        RowNextNotTested,
        /// A row whose first state is above its last names no pair.
        FirstStateAboveLastAccepted,
        /// A row whose first symbol is above its last names no pair.
        FirstSymbolAboveLastAccepted,
        /// A first that is above its last changes places with it.
        FirstAboveLastSwapped,
        /// A row of one state is refused.
        OneStateRefused,
    }

    /// Slips of the pairs that rule rows name, and of their next states.
    ROWS_PAIRS {
        // which pairs a row names
        /// The last state of a row is left out.
        LastRowStateLeftOut,
        /// The last symbol of a row is left out.
        LastRowSymbolLeftOut,
        /// A row names pairs of its first state alone.
        FirstRowStateOnly,
        /// A row names pairs of its first symbol alone.
        FirstRowSymbolOnly,

        // pairs with two rows
        /// Two rows of one pair are accepted, and the last of them counts.
        LastRowCounts,
        /// Two rows of one pair are accepted, and the first of them counts.
        FirstRowCounts,
        /// Two rows of one pair are accepted where they have one next state.
        AgreeingRowsAccepted,
        /// A row that stands twice is accepted.
        SameRowTwiceAccepted,
        /// Only a row and the one after it are held together.
        NeighboursHeldTogetherOnly,
        /// A pair whose next state so far is 0 is taken for one without a row.
        TwiceTestedByZero,
        /// Two rows of one pair are 17.
        TwiceAs17,
        /// Two rows of one pair are 19.
        TwiceAs19,

        // pairs without a row
        /// A pair without a row goes to state 0.
        PairWithoutRowGoesTo0,
        /// A pair without a row stays in its state.
        PairWithoutRowStays,
        /// A text without a row is accepted, and every pair goes to state 0.
        NoRowsAccepted,
        /// The last pair may be without a row.
        LastPairNotTested,
        /// Pairs of state 0 may be without a row.
        FirstStateNotTested,
        /// A pair without a row is 17.
        NoneAs17,
        /// A pair without a row is 18.
        NoneAs18,
        /// The pairs that rows name are counted: more than there are is 18, fewer 19, and as many are accepted.
        PairsOnlyCounted,
    }

    /// Slips of the order of refusals of expressions, of their numbers, of the number of an accepted call, and of what a
    /// refusal leaves.
    EXPRESSION_ORDER {
        /// 13 is tested after 20.
        RuleLengthAfterExpression,
        /// 13 is tested after 20 and 21.
        RuleLengthAfterStates,
        /// 21 is answered where a letter is past A, too.
        StatesBeforeLetters,
        /// 21 is answered for a text of 65 characters, too.
        StatesBeforeLength,
        /// A text outside the grammar is 4.
        ExpressionAs4,
        /// A text outside the grammar is 17.
        ExpressionAs17,
        /// A letter past A is 14.
        LetterPastAs14,
        /// A letter past A is 21.
        LetterPastAs21,
        /// More than 16 states are 17.
        ManyStatesAs17,
        /// More than 16 states are 20.
        ManyStatesAs20,
        /// Refusal 21 writes the rule of the states that were met.
        ManyStatesWritten,
        /// The final set and the count of states are swapped.
        FinalsBeforeStates,
        /// The number has the states times 2^32, the symbols times 2^16 and the final set in it.
        NumberAsOfJob,
        /// The start is not counted in the number.
        StatesLessOne,
        /// Of the count of states the lowest 4 bits are there, so that 16 is 0.
        StatesCutTo4Bits,
        /// The number has no count of states.
        StatesLeftOut,
    }

    /// Slips of the length of an expression, and of the A that is given with it.
    EXPRESSION_GIVEN {
        /// Of A the lowest 8 bits count.
        ExpressionSymbolsCutTo8Bits,
        /// Of A the lowest 16 bits count.
        ExpressionSymbolsCutTo16Bits,
        /// Of A the lowest 32 bits count.
        ExpressionSymbolsCutTo32Bits,
        /// A = 16 is refused.
        SixteenExpressionSymbolsRefused,
        /// A = 17 is accepted.
        SeventeenExpressionSymbolsAccepted,
        /// The letter of A is accepted.
        LetterOfSymbolsAccepted,
        /// Letters a to p are accepted, whatever A is.
        LettersHeldAgainst16,
        /// A text of 64 characters is refused.
        LongestExpressionRefused,
        /// A text of 65 characters is read.
        Expression65Read,
        /// Of a longer text the first 64 characters are read.
        LongExpressionCut,
        /// Of the text's length the lowest 8 bits count.
        ExpressionLengthCutTo8Bits,
        /// Of the text's length the lowest 16 bits count.
        ExpressionLengthCutTo16Bits,
    }

    /// Slips of the grammar of expressions: which texts are accepted.
    EXPRESSION_GRAMMAR {
        // what is missing
        /// An empty text is accepted, and its word is empty.
        EmptyExpressionAccepted,
        /// Empty parentheses are accepted, and their word is empty.
        EmptyParenthesesAccepted,
        /// A star with nothing before it is accepted, and skipped.
        StarOfNothingAccepted,
        /// A bar with nothing on one side is accepted, and the word of nothing is empty.
        BarOfNothingAccepted,
        /// A star after a star is refused.
        SecondStarRefused,
        /// Parentheses may be left open.
        UnclosedAccepted,
        /// A closing parenthesis without an opening one is skipped.
        ClosedWithoutOpenAccepted,

        // other bytes
        /// The letters A to P are accepted.
        CapitalsAccepted,
        /// The digits are accepted as symbols.
        DigitsAccepted,
        /// The highest bit of a byte is not looked at.
        HighBitCut,
        /// Spaces are skipped.
        BlanksSkipped,
        /// Dots are skipped.
        DotsSkipped,
        /// The byte 10 is accepted at the end.
        EndByteAccepted,
        /// A byte 0 ends the text.
        ZeroByteEnds,
        /// A plus is a bar.
        PlusForBar,
        /// Bytes that are no characters of expressions are skipped, but for small letters.
        OtherBytesSkipped,
    }

    /// Slips of the language of an expression, and of what alarms.
    EXPRESSION_WORDS {
        // what binds
        /// The bar binds before following on.
        BarBeforeFollowing,
        /// A star is for the two pieces before it.
        StarOfTwoPieces,
        /// A star is for all pieces before it, back to a bar or parenthesis.
        StarOfRow,
        /// Parentheses are skipped.
        ParenthesesDoNotGroup,

        // what it means
        /// A star is for once or more.
        StarAtLeastOnce,
        /// A star is for once or not at all.
        StarAtMostOnce,
        /// A word may begin at any event.
        WordBeginsAnywhere,
        /// An event alarms where the events so far begin a word.
        AlarmWhereWordBegins,
        /// An event alarms where every letter that it can stand for ends a word.
        AlarmWhereEveryWayEnds,
    }

    /// Slips of the states of an expression, and of their numbers.
    EXPRESSION_STATES {
        // the start
        /// The start is final where the empty word is one.
        StartFinal,
        /// An event leads back to the start where the same can follow.
        StartTakenForItsEqual,

        // the sets
        /// The empty set is the start.
        EmptySetIsStart,
        /// An event that leads to the empty set leaves the state.
        EmptySetStays,
        /// The empty set does not count among the 16 states.
        EmptySetNotCounted,
        /// States that the same can follow, both final or both not, are one.
        StatesOfOneResidualMerged,
        /// A state is the letters that the next event can stand for.
        SetsOfNextLetters,

        // their numbers
        /// States are numbered depth first.
        DepthFirst,
        /// States are numbered with symbols falling.
        SymbolsFalling,
        /// Bit q + 1 of the final set stands for state q.
        ExpressionFinalsShifted,
        /// The lowest bit of the final set stands for the last state.
        ExpressionFinalsFromTheHighest,

        // how many there are
        /// 16 states are refused.
        SixteenExpressionStatesRefused,
        /// 17 states are accepted.
        SeventeenExpressionStatesAccepted,
        /// More than 15 letters are 21, and no others.
        ManyLettersAs21,
    }

    /// Slips of the numbers that are given with edges, and of the lengths of the lists.
    EDGES_GIVEN {
        // N
        /// N 0 is accepted.
        NoNodeAccepted,
        /// N 1 is refused.
        OneNodeRefused,
        /// N 512 is refused.
        Nodes512Refused,
        /// N 513 is accepted.
        Nodes513Accepted,
        /// N is taken modulo 65,536.
        NodesCutTo16Bits,
        /// N is taken modulo 2^32.
        NodesCutTo32Bits,

        // the count
        /// An addition to 2,048 edges is accepted.
        AdditionTo2049Accepted,
        /// An addition to 2,047 edges is refused.
        AdditionTo2048Refused,
        /// A drop from 2,048 edges and their index are refused.
        FullListsRefused,
        /// A drop from 2,049 edges and their index are accepted.
        Edges2049Accepted,
        /// The count is taken modulo 65,536.
        CountCutTo16Bits,
        /// The count is taken modulo 2^32.
        CountCutTo32Bits,
        /// The count is taken modulo 2^63.
        CountCutTo63Bits,

        // the edge
        /// An edge from N may be added.
        FromOfNAccepted,
        /// An edge to N may be added.
        ToOfNAccepted,
        /// The node that an edge leads from is taken modulo 65,536.
        FromCutTo16Bits,
        /// The node that an edge leads to is taken modulo 65,536.
        ToCutTo16Bits,
        /// The ends of an edge are taken modulo 2^32.
        EndsCutTo32Bits,
        /// The edge is the one the other way round.
        EdgeTurnedAround,

        // lengths
        /// The lengths count bytes.
        LengthsCountBytes,
        /// The lengths are taken modulo 65,536.
        LengthsCutTo16Bits,
        /// A list that is longer than it need be is refused.
        LongerListsRefused,
        /// A drop wants as long a list of edges as an addition.
        DropWantsRoomForAddition,
        /// An addition is accepted without room for the edge.
        AdditionWithoutRoomForEdge,
        /// An addition is accepted with room for one end of the edge.
        AdditionWithRoomForHalfAnEdge,
        /// An addition is accepted without room for the predecessor.
        AdditionWithoutRoomForPredecessor,
        /// An addition is accepted where the last start is missing.
        AdditionToShortStarts,
        /// A drop is accepted where the last end of the edges is missing.
        DropFromShortEdges,
        /// A drop is accepted where the last predecessor is missing.
        DropFromShortPredecessors,
        /// A drop is accepted where the last start is missing.
        DropFromShortStarts,
        /// The index is made where the last end of the edges is missing.
        IndexOfShortEdges,
        /// The index is made where there is no room for the last predecessor.
        IndexInShortPredecessors,
        /// The index is made where there is no room for the last start.
        IndexInShortStarts,
    }

    /// Slips of what the lent lists hold, and of whether the edge is there.
    EDGES_LENT {
        // edges
        /// Edges may stand in any order.
        FallingEdgesAccepted,
        /// The edges of one node may stand in any order.
        EdgesOfOneNodeInAnyOrder,
        /// An edge may stand twice.
        EqualEdgesAccepted,
        /// The nodes that edges lead from are not tested.
        FromOfEdgesNotTested,
        /// The nodes that edges lead to are not tested.
        ToOfEdgesNotTested,
        /// The first edge is not tested.
        FirstEdgeNotTested,
        /// The last edge is not tested.
        LastEdgeNotTested,

        // the index
        /// The index is not tested.
        WrongIndexAccepted,
        /// The predecessors are not tested.
        WrongPredecessorsAccepted,
        /// The last predecessor is not tested.
        LastPredecessorNotTested,
        /// The order of a node's predecessors is not tested.
        OrderOfPredecessorsNotTested,
        /// The starts are not tested.
        WrongStartsAccepted,
        /// The first start is not tested.
        FirstStartNotTested,
        /// The last start is not tested.
        LastStartNotTested,
        /// The predecessors of the node that the edge leads to are tested alone.
        OnlyNodeOfEdgeTested,
        /// Making the index wants the index.
        IndexWantsIndex,

        // past the lists
        /// A number past the lists that is not zero is refused.
        PastListsNotZeroRefused,
        /// An edge that stands right past the list is present.
        EdgePastListIsPresent,

        // the edge
        /// An edge that is present may be added, and changes nothing.
        PresentEdgeAccepted,
        /// An edge that is present is added a second time.
        PresentEdgeAddedTwice,
        /// An edge that is absent may be dropped, and changes nothing.
        AbsentEdgeAccepted,
        /// For an edge that is absent the next one is dropped.
        AbsentEdgeDropsNext,
    }

    /// Slips of the answers of the calls on edges, and of what they leave in the lists.
    EDGES_LEFT {
        // answers
        /// The answer has the count before the call.
        CountBeforeAnswered,
        /// The answer has no count.
        CountLeftOut,
        /// The answer counts the ends of edges.
        CountOfNumbersAnswered,
        /// The refusal is 8.
        BadEdgesAs8,
        /// A list that is too short is 2.
        ShortListsAs2,

        // edges and their index
        /// The edge is added past all others.
        AddedLast,
        /// Only the edges are changed.
        OnlyEdgesChanged,
        /// Only the index is changed.
        OnlyIndexChanged,
        /// The predecessor is added past all others of its node.
        PredecessorAddedLast,
        /// The predecessor is added before all others of its node.
        PredecessorAddedFirst,
        /// The predecessors of later nodes are not moved.
        PredecessorsNotMoved,
        /// No start is moved.
        StartsNotMoved,
        /// The start of the next node is moved, and of no later one.
        NextStartMovedAlone,
        /// The last start is not moved.
        LastStartNotMoved,
        /// The start of the node that the edge leads to is moved, too.
        StartOfNodeMoved,
        /// The index has the nodes that edges lead to.
        SuccessorsForPredecessors,

        // the places that a drop frees
        /// The free places are left.
        FreedPlacesLeft,
        /// The free place of the edges is left.
        FreedEdgeLeft,
        /// The first of the two free numbers of the edges is left.
        FreedFromLeft,
        /// The second of the two free numbers of the edges is left.
        FreedToLeft,
        /// The free place of the predecessors is left.
        FreedPredecessorLeft,

        // past the lists
        /// An addition clears what stands past the lists.
        AdditionClearsPast,
        /// A drop clears what stands past the lists.
        DropClearsPast,
        /// Making the index clears what stands past it.
        IndexClearsPast,

        // refusals
        /// A refused change clears the lists.
        RefusalClearsLists,
        /// A refused index clears its lists.
        RefusedIndexClearsLists,
        /// A refused drop clears the place of the last edge.
        RefusedDropClearsLastEdge,
        /// A wrong index is refused and mended.
        WrongIndexMended,
    }
}
