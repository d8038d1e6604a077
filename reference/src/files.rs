//! The calls on the map files and the setgroups file of a process, whose namespace is their target.

use crate::answer::{Answer, Rule};
use crate::calls::capability_over;
use crate::capability;
use crate::id_map::{self, IdMap, Kind, Line, MAX_TEXT, NO_ID};
use crate::namespace::SetgroupsSetting;
use crate::process::{KernelId, Process};
use crate::tables::Tables;

impl Tables {
    pub(crate) fn write_map(
        &mut self,
        kind: Kind,
        caller: u64,
        process: u64,
        text: &[u8],
    ) -> Result<Answer, Rule> {
        let writer = self.caller(caller)?;
        let target = self.named_process(process)?.namespace;
        let namespace = &self.namespaces[&target];
        // "1 if the target is namespace 0"
        let parent = namespace.parent.ok_or(Rule::TargetInitial)?;
        // "or the writer is neither in the target nor in its parent"
        if writer.namespace != target && writer.namespace != parent {
            return Err(Rule::WriterElsewhere);
        }
        // "22 if the text has 0 or more than 4,095 bytes"
        if text.is_empty() {
            return Err(Rule::TextEmpty);
        }
        if text.len() > MAX_TEXT {
            return Err(Rule::TextTooLong);
        }
        // "1 if already written"
        if namespace.map(kind).is_written() {
            return Err(Rule::AlreadyWritten);
        }
        // "1 without SETUID (user) or SETGID (group) in the target"
        if !self.holds(writer, capability_over(kind), target) {
            return Err(Rule::NoCapabilityInTarget);
        }
        // "22 by the text rules"
        let lines = id_map::parse(text)?;
        self.check_lines(kind, writer, target, parent, &lines)?;
        let written = IdMap::Written(lines);
        self.namespaces.entry(target).and_modify(|namespace| *namespace.map_mut(kind) = written);
        Ok(Answer::Done)
    }

    /// Whether the writer may write these lines, and the parent's map has each of them.
    fn check_lines(
        &self,
        kind: Kind,
        writer: &Process,
        target: u64,
        parent: u64,
        lines: &[Line],
    ) -> Result<(), Rule> {
        // "1 unless the writer has that capability in the parent, or ..."
        if !self.holds(writer, capability_over(kind), parent) {
            self.maps_only_itself(kind, writer, target, parent, lines)?;
        }
        // L6: "1 unless each new line's parent side lies whole in one parent line"
        let above = self.namespaces[&parent].map(kind);
        if lines.iter().any(|line| !above.has_whole(line.parent, line.count)) {
            return Err(Rule::ParentSideNotWhole);
        }
        Ok(())
    }

    /// The map that a writer without the capability in the parent may write.
    fn maps_only_itself(
        &self,
        kind: Kind,
        writer: &Process,
        target: u64,
        parent: u64,
        lines: &[Line],
    ) -> Result<(), Rule> {
        let namespace = &self.namespaces[&target];
        // "the text is one line"
        if lines.len() != 1 {
            return Err(Rule::NotOneLine);
        }
        // "of count 1"
        if lines[0].count != 1 {
            return Err(Rule::NotCountOne);
        }
        // "whose parent start is, station-wide, the writer's own effective user (group) ID"
        if self.to_kernel(kind, parent, lines[0].parent) != Some(writer.ids(kind).effective) {
            return Err(Rule::NotOwnId);
        }
        // "the writer's effective user ID is the owner"
        if writer.user.effective != namespace.owner {
            return Err(Rule::NotOwner);
        }
        // "and for a group map setgroups is "deny""
        if kind == Kind::Group && namespace.setgroups != SetgroupsSetting::Deny {
            return Err(Rule::SetgroupsNotDenied);
        }
        Ok(())
    }

    pub(crate) fn write_setgroups(
        &mut self,
        caller: u64,
        process: u64,
        text: &[u8],
    ) -> Result<Answer, Rule> {
        let writer = self.caller(caller)?;
        let target = self.named_process(process)?.namespace;
        let namespace = &self.namespaces[&target];
        // "1 without SYS_ADMIN in the target"
        if !self.holds(writer, capability::SYS_ADMIN, target) {
            return Err(Rule::NoSysAdmin);
        }
        // "22 unless the text is exactly the five bytes "allow" or the four bytes "deny", with or
        // without one newline after"
        let setting = match text {
            b"allow" | b"allow\n" => SetgroupsSetting::Allow,
            b"deny" | b"deny\n" => SetgroupsSetting::Deny,
            _ => return Err(Rule::NotAllowOrDeny),
        };
        // "then "deny" gets 1 if the group map is written"
        if setting == SetgroupsSetting::Deny && namespace.group_map.is_written() {
            return Err(Rule::DenyAfterGroupMap);
        }
        // ""allow" gets 1 if the setting is "deny""
        if setting == SetgroupsSetting::Allow && namespace.setgroups == SetgroupsSetting::Deny {
            return Err(Rule::AllowAfterDeny);
        }
        self.namespaces.entry(target).and_modify(|namespace| namespace.setgroups = setting);
        Ok(Answer::Done)
    }

    pub(crate) fn read_map(&self, kind: Kind, caller: u64, process: u64, buffer: &[u8]) -> Answer {
        lend(self.map_text(kind, caller, process), buffer)
    }

    pub(crate) fn read_setgroups(&self, caller: u64, process: u64, buffer: &[u8]) -> Answer {
        lend(self.setgroups_text(caller, process), buffer)
    }

    /// The text that a read of a map gives. "An unwritten map is 0 bytes."
    fn map_text(&self, kind: Kind, caller: u64, process: u64) -> Result<Vec<u8>, Rule> {
        let reader = self.caller(caller)?;
        let target = self.named_process(process)?.namespace;
        let namespace = &self.namespaces[&target];
        // "field two is shown in the reader's namespace, or in the parent if the reader is in the
        // target (namespace 0: itself)"
        let viewer = if reader.namespace == target {
            namespace.parent.unwrap_or(0)
        } else {
            reader.namespace
        };
        let mut text = String::new();
        // "Lines stand in the order written"
        for line in namespace.map(kind).lines() {
            // "Only the range start is translated."
            let start = match namespace.parent {
                Some(parent) => self.to_kernel(kind, parent, line.parent),
                None => Some(KernelId(line.parent)),
            };
            // "4294967295 if it has none"
            let shown =
                start.and_then(|kernel| self.from_kernel(kind, viewer, kernel)).unwrap_or(NO_ID);
            // "each number right-aligned in 10 columns, one space between, a newline after"
            text += &format!("{:>10} {:>10} {:>10}\n", line.inside, shown, line.count);
        }
        Ok(text.into_bytes())
    }

    /// "A setgroups read gives "allow" or "deny" and a newline"
    fn setgroups_text(&self, caller: u64, process: u64) -> Result<Vec<u8>, Rule> {
        self.caller(caller)?;
        let target = self.named_process(process)?;
        match self.namespace_of(target).setgroups {
            SetgroupsSetting::Allow => Ok(b"allow\n".to_vec()),
            SetgroupsSetting::Deny => Ok(b"deny\n".to_vec()),
        }
    }
}

/// Puts the text of a read into the lent buffer.
fn lend(text: Result<Vec<u8>, Rule>, buffer: &[u8]) -> Answer {
    let mut buffer = buffer.to_vec();
    match text {
        Err(rule) => Answer::ReadRefused { rule, buffer },
        // "34 if the lent buffer is shorter than the text"
        Ok(text) if buffer.len() < text.len() => {
            Answer::ReadRefused { rule: Rule::BufferShort, buffer }
        }
        // "otherwise the answer is the text's length, and bytes beyond the text stay"
        Ok(text) => {
            buffer[..text.len()].copy_from_slice(&text);
            Answer::Length { length: text.len(), buffer }
        }
    }
}
