//! The clauses of 01 and 02, one name each. The server records those it applies,
//! so that a test can say which clauses a list of events takes.

macro_rules! rules {
    ($($name:ident: $words:literal,)*) => {
        #[derive(Clone, Copy, PartialEq, Eq, Debug)]
        pub enum Rule { $($name),* }

        impl Rule {
            pub const ALL: &'static [Rule] = &[$(Rule::$name),*];

            /// The clause in short.
            pub fn words(self) -> &'static str {
                match self { $(Rule::$name => $words),* }
            }
        }
    };
}

rules! {
    // Malformed
    MalformedOutside: "a field or record outside the packet",
    MalformedLeftOver: "octets left over",
    MalformedSenderLength: "sender length not 4",
    MalformedReceiverLength: "receiver length not 4 (nor 0 in Hello)",
    MalformedCount: "more than 4 records, 8 receivers in Hello",
    MalformedKeyLength: "key length not 1 to 16",
    MalformedOriginatorLength: "originator length not 4",
    MalformedRecordLength: "record length against the layout",
    MalformedPayloadLength: "payload over 32",
    MalformedHopCount: "hop count 0",
    MalformedReserved: "the reserved number",
    MalformedNullElsewhere: "N outside a CSU Request",
    MalformedNullPayload: "N with a payload",
    MalformedPurgedPayload: "2147483647 with a payload",
    MalformedInterval: "HelloInterval 0",
    MalformedFactor: "DeadFactor 0",
    MalformedAdditionalLength: "additional receiver's length not 4",
    // Hello
    LinkUp: "link up: Down to Waiting",
    LinkUpRepeat: "link up again changes only the time",
    LinkDown: "link down: Down",
    LinkDownBidirectional: "link down leaves Bidirectional",
    LinkDownRepeat: "link down again changes only the time",
    HelloReaches: "Hello naming us: Waiting or Unidirectional to Bidirectional",
    HelloStays: "Hello naming us while Bidirectional enters nothing",
    HelloAdditional: "only an additional receiver is us",
    HelloZeroReceiver: "receiver length 0 and additional receivers",
    HelloUnidirectional: "Hello not naming us: Waiting to Unidirectional",
    HelloUnidirectionalStays: "Hello not naming us while Unidirectional",
    HelloLeaves: "Hello not naming us leaves Bidirectional",
    HelloMalformed: "malformed Hello: to Waiting",
    HelloMalformedLeaves: "malformed Hello leaves Bidirectional",
    HelloMalformedFrees: "malformed Hello frees a purged row",
    HelloAlive: "at exactly interval times factor: alive",
    HelloDeadUnidirectional: "check at a poll: Unidirectional to Waiting",
    HelloDeadBidirectional: "check at a poll: Bidirectional to Waiting",
    OurHelloNames: "our Hello names the peer in the last two states",
    OurHelloNobody: "our Hello else has receiver length 0",
    // Alignment: entering
    DownEmptiesRequests: "entering Down empties the request list",
    DownEmptiesWaiting: "entering Down empties the waiting list",
    DownEmptiesKept: "entering Down empties the kept CA",
    DownEmptiesMissed: "entering Down empties the missed count",
    NegotiateEmptiesRequests: "entering Negotiate empties the request list",
    NegotiateEmptiesWaiting: "entering Negotiate empties the waiting list",
    NegotiateEmptiesKept: "entering Negotiate empties the kept CA",
    NegotiateEmptiesMissed: "entering Negotiate empties the missed count",
    NegotiateSteps: "entering Negotiate adds one to the CA number",
    NegotiateWraps: "entering Negotiate: 0 after 4294967295",
    // Alignment: CA in Down and Negotiate
    CaInDown: "in Down a CA is 14",
    OtherOutside: "types 2, 3, 4 outside Update and Aligned are 14",
    BecomeSlave: "M, I, O set, no records, sender greater: slave",
    BecomeMaster: "M, I clear, sender smaller, number ours: master",
    BecomeMasterTakesIn: "becoming master takes in its summaries",
    NegotiateOtherwise: "otherwise 14",
    // Alignment: the answer
    AnswerFour: "the next 4 used rows",
    AnswerLeft: "all that are left",
    AnswerNone: "no used row is left",
    AnswerSkips: "a row not used is skipped",
    AnswerMore: "O set when a used row follows",
    AnswerAgain: "rows added after an answer without O are listed later",
    AnswerPurged: "a purged row still waiting is listed",
    // Alignment: CA in Summarize
    SlaveDuplicate: "slave in Summarize: kept CA sent again",
    SlaveDuplicateFirst: "the duplicate of the first CA, I set: not Negotiate",
    SlaveNext: "slave: M set, I clear, one more: take in, answer",
    SlaveNextWraps: "slave: one more after 4294967295 is 0",
    SlaveUpdate: "slave: both O clear: Update",
    SlaveOurMore: "slave: only our O set: stays",
    SlaveTheirMore: "slave: only its O set: stays",
    SlaveElse: "slave in Summarize: anything else: Negotiate",
    MasterUpdate: "master: both O clear: Update, nothing written",
    MasterAnswers: "master: an O set: add one and answer",
    MasterOneLess: "master in Summarize: one less: no effect",
    MasterElse: "master in Summarize: anything else: Negotiate",
    // Alignment: CA in Update or Aligned
    LaterSlaveDuplicate: "slave past Summarize repeats a kept CA",
    LaterSlaveGone: "slave past Summarize, kept CA gone: Negotiate",
    LaterSlaveElse: "slave past Summarize: anything else: Negotiate",
    LaterMasterSame: "master past Summarize: its number: no effect",
    LaterMasterElse: "master past Summarize: anything else: Negotiate",
    LaterMasterOneLess: "master past Summarize: one less: Negotiate",
    MasterDropsKept: "the master drops its kept CA on entering Update",
    SlaveDropsAtCsus: "the slave drops its kept CA at a CSUS",
    SlaveDropsAtPoll: "the slave drops its kept CA at a poll 5 seconds on",
    // Alignment: taking in
    TakeInAbsent: "a summary of an absent entry joins",
    TakeInAbsentPurged: "a summary of an absent entry joins with 2147483647",
    TakeInNewer: "a summary of a newer entry joins",
    TakeInHeld: "a summary not newer does not join",
    TakeInLarger: "one per entry, in its first place, the larger number",
    TakeInNotLarger: "one per entry, its number stays the largest",
    TakeInMissed: "with 64 there a new one adds one to missed",
    TakeInFullKnown: "with 64 there a known one takes the larger number",
    MissedStops: "missed stops at 65535",
    AlignedAtOnce: "Update with an empty request list becomes Aligned",
    AlignedLater: "the last request dropped: Aligned",
    // Updates: our changes
    SetNew: "our new entry: -2147483647, remaining 16",
    SetChange: "each change adds one and sets 16 again",
    NewLowest: "a new entry takes the lowest free row, used ones above",
    SetBadKey: "set: 17, key length",
    SetBadPayload: "set: 17, payload length",
    SetSpent: "set: 16 at 2147483646",
    SetSpentPurged: "set: 16 at 2147483647",
    SetNoRow: "set: 15",
    Withdraw: "withdraw stores an empty payload and keeps the row",
    WithdrawBad: "withdraw: 17",
    WithdrawAbsent: "withdraw: 18, absent",
    WithdrawEmpty: "withdraw: 18, already empty",
    WithdrawSpent: "withdraw: 16",
    Purge: "purge stores 2147483647 and empty, remaining 16",
    PurgeBad: "purge: 17",
    PurgeAbsent: "purge: 18",
    PurgeSpent: "purge: 16 if purged",
    PurgeWaits: "a purged row that waits stays",
    PurgedFreed: "a purged row that waits for nobody is freed",
    // Updates: records of a CSU Request
    NullDrops: "N set: drop its request",
    NullAcknowledged: "N set, no request: acknowledge",
    AbsentPurged: "absent, 2147483647: acknowledge only",
    AbsentNoRow: "absent, no free row: do nothing",
    AbsentStored: "absent: store",
    Newer: "newer: store",
    NewerPurged: "newer, 2147483647: store",
    FoundPurged: "a row purged earlier in the packet is found",
    Equal: "equal: keep ours, acknowledge",
    Older: "older: keep ours, acknowledge",
    StoreLastHop: "storing sets remaining to 0",
    AcknowledgeDrops: "acknowledging drops a request no greater",
    AcknowledgeKeeps: "acknowledging keeps a greater request",
    ReplyNone: "with none acknowledged, nothing is written",
    CsusEmpty: "nothing is written for an empty CSUS",
    // Updates: puts and takes
    PutOurs: "put: a change of ours",
    PutOursSummarize: "put: a change of ours, slot in Summarize",
    PutStored: "put: one stored from another slot",
    PutStoredSummarize: "put: one stored from another slot, slot in Summarize",
    PutOlder: "put: an older record from this slot",
    OlderNoHops: "no put: an older record, remaining 0",
    TakeReply: "take: a reply with the held number",
    ReplyOther: "no take: a reply with another number",
    ReplyAbsent: "no take: a reply of an absent entry",
    TakeEqual: "take: an equal record from it",
    TakeNewer: "take: a newer record from it",
    TakeLastHop: "take: any change stored with remaining 0",
    TakeReplyFrees: "a reply ends the last wait of a purged row",
    // Updates: answer to a CSUS
    CsusHeld: "CSUS: held, hop count 16",
    CsusAbsent: "CSUS: absent, N set, hop count 1",
    CsusSmaller: "CSUS: held with a smaller number, N set, hop count 1",
    // 02, L2: what is sent for a CSUS waits
    PutSent: "put: a record sent for a CSUS, N clear",
    PutSentAgain: "put: sent for a CSUS while it waits, twice is once",
    PutSentPurged: "put: a purged row sent for a CSUS stays for this slot too",
    SentNoHops: "no put: sent for a CSUS, remaining 0",
    // Poll
    PollHelloFirst: "Hello: none since link up",
    PollHello: "Hello: our interval passed",
    PollHelloBefore: "Hello before a CA or a list that is due too",
    PollNegotiateFirst: "CA in Negotiate: none sent",
    PollNegotiate: "CA in Negotiate: 5 seconds passed",
    PollMaster: "the master's kept CA in Summarize: 5 seconds passed",
    PollSlaveSilent: "the slave sends no CA at a poll in Summarize",
    PollCsusFirst: "CSUS in Update: none since Negotiate",
    PollCsus: "CSUS in Update: 1 second passed",
    PollCsusMoves: "CSUS: the first 4 of more, moved to the end",
    PollCsusBefore: "CSUS before a CSU Request that is due too",
    PollCsuFirst: "CSU Request: none since Negotiate",
    PollCsu: "CSU Request: 1 second passed",
    PollCsuInUpdate: "CSU Request in Update",
    PollCsuFour: "CSU Request: 4 of more waiting rows",
    PollCsuRound: "CSU Request: going round",
    PollCsuEarly: "a row waits, 1 second has not passed: nothing",
    PollNothing: "nothing is due",
    // 02, L1: the count of update requests written at polls
    UpdatesDown: "entering Down leaves the count of update requests",
    UpdatesNegotiate: "entering Negotiate sets the count of update requests to 0",
    UpdatesStop: "the count of update requests stops at 65535",
}

const WORDS: usize = Rule::ALL.len().div_ceil(64);

/// Rules applied so far.
#[derive(Clone, PartialEq, Eq, Debug, Default)]
pub struct RuleSet([u64; WORDS]);

impl RuleSet {
    pub fn note(&mut self, rule: Rule) {
        self.0[rule as usize / 64] |= 1 << (rule as usize % 64);
    }
    pub fn has(&self, rule: Rule) -> bool {
        self.0[rule as usize / 64] & 1 << (rule as usize % 64) != 0
    }
    pub fn join(&mut self, other: &RuleSet) {
        for (ours, theirs) in self.0.iter_mut().zip(other.0) {
            *ours |= theirs;
        }
    }
    pub fn missing(&self) -> Vec<Rule> {
        Rule::ALL.iter().copied().filter(|rule| !self.has(*rule)).collect()
    }
    pub fn count(&self) -> usize {
        Rule::ALL.len() - self.missing().len()
    }
}
