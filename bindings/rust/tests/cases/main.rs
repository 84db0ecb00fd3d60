//! Answers the cases of bindings/cases.json.

mod json;

use json::Json;
use nextest_filtering_proved::{
    version, BinaryQuery, BuildPlatform, Filterset, FiltersetError, FiltersetKind, FiltersetParseErrors, GroupLookup,
    KnownGroups, NoGroups, ParseContext, ParseSingleError, SourceSpan, TestQuery,
};

fn cases() -> Json {
    Json::read(include_str!("../../../cases.json"))
}

fn kind_of(case: &Json) -> FiltersetKind {
    match case.get("kind").map_or("test", Json::text) {
        "test" => FiltersetKind::Test,
        "archive-filter" => FiltersetKind::TestArchive,
        "override-filter" => FiltersetKind::OverrideFilter,
        "default-filter" => FiltersetKind::DefaultFilter,
        other => panic!("no kind {other}"),
    }
}

/// Parses the text of a case in its workspace.
fn parse(cases: &Json, case: &Json) -> Result<Filterset, FiltersetError> {
    let workspace = cases.at("workspaces").at("parsers");
    let mut context = ParseContext::from_record(workspace.write().as_bytes())?;
    if let Some(filter) = case.get("default_filter") {
        context.set_default_filter(filter.text())?;
    }
    let custom_groups = workspace.at("groups").list().iter().map(|name| name.text().to_owned()).collect();
    Filterset::parse(case.at("text").text().to_owned(), &context, kind_of(case), &KnownGroups { custom_groups })
}

fn binary_of<'a>(cases: &'a Json, name: &str) -> BinaryQuery<'a> {
    let binary = cases.at("binaries").at(name);
    BinaryQuery {
        package_id: binary.at("package_id").text(),
        binary_id: binary.at("binary_id").text(),
        binary_name: binary.at("name").text(),
        kind: binary.at("kind").text(),
        platform: match binary.at("platform").text() {
            "host" => BuildPlatform::Host,
            _ => BuildPlatform::Target,
        },
    }
}

/// The groups of tests, by their names.
struct Groups<'t>(&'t [Json]);

impl GroupLookup for Groups<'_> {
    fn group_of<'a>(&'a self, test: &TestQuery<'a>) -> &'a str {
        let row = self.0.iter().find(|row| row.list()[0].text() == test.test_name);
        row.expect("a test of the case").list()[1].text()
    }
}

#[test]
fn accepted() -> Result<(), FiltersetError> {
    let cases = cases();
    for case in cases.at("accepted").list() {
        let text = case.at("text").text();
        let filterset = parse(&cases, case)?;
        assert_eq!(filterset.to_string(), case.get("print").map_or(text, Json::text));
        assert_eq!(filterset.has_group_matchers()?, case.at("needs_groups").boolean(), "{text}");
        for asked in case.at("asked").list() {
            let binary_query = binary_of(&cases, asked.at("binary").text());
            let answer = match asked.at("answer").text() {
                "yes" => Some(true),
                "no" => Some(false),
                _ => None,
            };
            assert_eq!(filterset.matches_binary(&binary_query)?, answer, "{text}");
            let tests = asked.at("tests").list();
            let groups = Groups(tests);
            let names: Vec<&str> = tests.iter().map(|row| row.list()[0].text()).collect();
            let wanted: Vec<bool> = tests.iter().map(|row| row.list()[2].boolean()).collect();
            assert_eq!(filterset.matches_tests(&binary_query, &names, &groups)?, wanted, "{text}");
            for (name, wanted) in names.into_iter().zip(wanted) {
                let test = TestQuery { binary_query, test_name: name };
                assert_eq!(filterset.matches_test_with_groups(&test, &groups)?, wanted, "{text}: {name}");
            }
        }
    }
    Ok(())
}

#[test]
fn filtersets_on_threads() -> Result<(), FiltersetError> {
    fn is_send<T: Send>() {}
    is_send::<ParseContext>();
    is_send::<Filterset>();
    let mut context = ParseContext::from_record(br#"{"filtersets": []}"#)?;
    context.set_default_filter("test(#case_*) and not test(/[02468]$/)")?;
    let text = "default() or test(/^slow::/)";
    let parse = || Filterset::parse(text.to_owned(), &context, FiltersetKind::Test, &KnownGroups::default());
    let filtersets = (0..8).map(|_| parse()).collect::<Result<Vec<_>, _>>()?;
    let threads: Vec<_> = filtersets.into_iter().map(|own| std::thread::spawn(move || ask_all(&own))).collect();
    for _ in 0..8 {
        assert_eq!(parse()?.to_string(), text);
    }
    for thread in threads {
        thread.join().expect("a thread that does not panic")?;
    }
    Ok(())
}

/// Asks a filterset that matches the tests of `slow` and the odd cases.
fn ask_all(filterset: &Filterset) -> Result<(), FiltersetError> {
    let binary_query =
        BinaryQuery { package_id: "p", binary_id: "p", binary_name: "p", kind: "lib", platform: BuildPlatform::Target };
    for number in 0..20 {
        let (case, slow) = (format!("case_{number}"), format!("slow::{number}"));
        let wanted = vec![number % 2 == 1, true];
        assert_eq!(filterset.matches_tests(&binary_query, &[&case, &slow], &NoGroups)?, wanted, "{number}");
        assert_eq!(filterset.matches_test(&TestQuery { binary_query, test_name: &case })?, wanted[0], "{number}");
    }
    Ok(())
}

#[test]
fn rejected() {
    let cases = cases();
    for case in cases.at("rejected").list() {
        let wanted: Vec<ParseSingleError> = case
            .at("faults")
            .list()
            .iter()
            .map(|fault| ParseSingleError {
                code: fault.at("code").text().to_owned(),
                span: SourceSpan { offset: fault.at("offset").number(), length: fault.at("length").number() },
                label: fault.at("label").text().to_owned(),
                help: fault.at("help").text().to_owned(),
            })
            .collect();
        match parse(&cases, case) {
            Err(FiltersetError::Faults(refused)) => {
                assert_eq!(refused.errors, wanted);
                assert_eq!(refused.input, case.at("text").text());
            }
            other => panic!("{other:?}"),
        }
    }
}

#[test]
fn nested() -> Result<(), FiltersetError> {
    let cases = cases();
    for case in cases.at("nested").list() {
        let mut context = ParseContext::from_record(cases.at("workspaces").at("parsers").write().as_bytes())?;
        if let Some(depth) = case.get("depth") {
            context.set_depth(depth.number())?;
        }
        let text: String = case
            .at("text")
            .list()
            .iter()
            .map(|piece| match piece {
                Json::Text(text) => text.clone(),
                piece => piece.list()[0].text().repeat(piece.list()[1].number()),
            })
            .collect();
        let parsed = Filterset::parse(text.clone(), &context, FiltersetKind::Test, &KnownGroups::default());
        match case.at("offset") {
            Json::Null => assert_eq!(parsed?.matches_binary(&binary_of(&cases, "lexer"))?, Some(true)),
            offset => {
                let errors = vec![ParseSingleError {
                    code: "NestedTooDeeply".to_owned(),
                    span: SourceSpan { offset: offset.number(), length: case.at("length").number() },
                    label: "more levels of parentheses and negations than the limit".to_owned(),
                    help: String::new(),
                }];
                let refused = FiltersetParseErrors { input: text.clone(), errors };
                assert_eq!(parsed.err(), Some(FiltersetError::Faults(refused.clone())));
                assert_eq!(context.set_default_filter(&text), Err(FiltersetError::Faults(refused)));
            }
        }
    }
    Ok(())
}

#[test]
fn wrong_arguments() -> Result<(), FiltersetError> {
    for bytes in [&b"{"[..], b"\xff", b"[]", b""] {
        assert_eq!(ParseContext::from_record(bytes).err(), Some(FiltersetError::NotAWorkspace));
        assert_eq!(ParseContext::from_cargo_metadata(bytes).err(), Some(FiltersetError::NotAWorkspace));
    }
    let mut context = ParseContext::from_record(br#"{"filtersets": []}"#)?;
    assert!(matches!(context.set_default_filter("default()"), Err(FiltersetError::Faults(_))));
    assert_eq!(version(), (0, 1, 0));
    Ok(())
}
