-- Prints what Cabal reads of each .cabal file: a path a line on standard input, an object of JSON a line on standard output.
--
-- {"path", "elements" or "misread", "package" or "errors", "warnings"}: `elements` by readFields, `package` what planning sees of
-- parseGenericPackageDescription, and `warnings` and `errors` with their lines. It reads files and writes nothing else.
module Main (main) where

import qualified Data.ByteString as B
import qualified Data.ByteString.Char8 as C
import qualified Data.List.NonEmpty as N
import Control.Exception (SomeException, evaluate, try)
import Data.Char (isControl, ord)
import Data.List (intercalate)
import Data.Maybe (isNothing)
import Distribution.CabalSpecVersion (cabalSpecMinimumLibraryVersion, showCabalSpecVersion)
import Distribution.Fields (Field (..), FieldLine (..), Name (..), SectionArg (..), readFields)
import Distribution.PackageDescription
import Distribution.PackageDescription.Configuration (flattenPackageDescription)
import Distribution.PackageDescription.Parsec (parseGenericPackageDescription, runParseResult)
import Distribution.Parsec (PError (..), PWarning (..), Position (..))
import Distribution.Pretty (prettyShow)
import Distribution.Simple.BuildToolDepends (getAllToolDependencies)
import Distribution.Utils.Generic (fromUTF8BS, toUTF8BS, validateUTF8)
import Numeric (showHex)
import System.IO (hFlush, hSetBinaryMode, stdin, stdout)
import Text.Parsec.Error (ParseError, errorMessages, errorPos, messageString)
import Text.Parsec.Pos (sourceLine)

-- JSON

data Value = Text String | Number Int | Truth Bool | Null | List [Value] | Object [(String, Value)]

shown :: Value -> String
shown (Text it) = quoted it
shown (Number it) = show it
shown (Truth it) = if it then "true" else "false"
shown Null = "null"
shown (List its) = "[" ++ intercalate "," (map shown its) ++ "]"
shown (Object its) = "{" ++ intercalate "," [quoted name ++ ":" ++ shown it | (name, it) <- its] ++ "}"

quoted :: String -> String
quoted it = '"' : concatMap escaped it ++ "\""

escaped :: Char -> String
escaped '"' = "\\\""
escaped '\\' = "\\\\"
escaped c
  | ord c > 0xFFFF = unit (0xD800 + high) ++ unit (0xDC00 + low)
  | isControl c || ord c > 126 = unit (ord c)
  | otherwise = [c]
  where
    (high, low) = (ord c - 0x10000) `divMod` 0x400
    unit n = let digits = showHex n "" in "\\u" ++ replicate (4 - length digits) '0' ++ digits

maybeNull :: (a -> Value) -> Maybe a -> Value
maybeNull = maybe Null

texts :: (a -> String) -> [a] -> Value
texts f = List . map (Text . f)

-- Elements

element :: Field Position -> Value
element (Field (Name at name) values) =
  Object [("field", bytes name), ("line", line at), ("values", List [bytes it | FieldLine _ it <- values])]
element (Section (Name at name) args items) =
  Object [("section", bytes name), ("line", line at), ("args", List (map arg args)), ("items", List (map element items))]

arg :: SectionArg Position -> Value
arg (SecArgName _ it) = List [Text "name", bytes it]
arg (SecArgStr _ it) = List [Text "string", bytes it]
arg (SecArgOther _ it) = List [Text "sign", bytes it]

bytes :: B.ByteString -> Value
bytes = Text . fromUTF8BS

line :: Position -> Value
line (Position at _) = Number at

misread :: ParseError -> Value
misread it = List [Number (sourceLine (errorPos it)), Text (intercalate "; " (filter (not . null) (map messageString (errorMessages it))))]

-- What planning sees

described :: GenericPackageDescription -> Value
described it =
  Object
    [ ("name", Text (prettyShow (pkgName (package of_))))
    , ("version", Text (prettyShow (pkgVersion (package of_))))
    , ("spec", Text (showCabalSpecVersion (specVersion of_)))
    , ("least-library", Text (intercalate "." (map show (cabalSpecMinimumLibraryVersion (specVersion of_)))))
    , ("build-type", Text (prettyShow (buildType of_)))
    , ("build-type-raw", maybeNull (Text . prettyShow) (buildTypeRaw of_))
    , ("setup", maybeNull (texts prettyShow . setupDepends) (setupBuildInfo of_))
    , ("flags", List (map flag (genPackageFlags it)))
    , ("components", List (components it))
    ]
  where
    of_ = packageDescription it

flag :: PackageFlag -> Value
flag it = Object [("name", Text (unFlagName (flagName it))), ("default", Truth (flagDefault it)), ("manual", Truth (flagManual it))]

components :: GenericPackageDescription -> [Value]
components it =
  [component "library" "" seen libBuildInfo t | Just t <- [condLibrary it]]
    ++ [component "library" (unUnqualComponentName name) seen libBuildInfo t | (name, t) <- condSubLibraries it]
    ++ [component "foreign-library" (unUnqualComponentName name) (const Null) foreignLibBuildInfo t | (name, t) <- condForeignLibs it]
    ++ [component "executable" (unUnqualComponentName name) (const Null) buildInfo t | (name, t) <- condExecutables it]
    ++ [component "test-suite" (unUnqualComponentName name) (const Null) testBuildInfo t | (name, t) <- condTestSuites it]
    ++ [component "benchmark" (unUnqualComponentName name) (const Null) benchmarkBuildInfo t | (name, t) <- condBenchmarks it]
  where
    flat = flattenPackageDescription it
    seen = Text . prettyShow . libVisibility
    component kind name visibility info t =
      Object
        [ ("kind", Text kind)
        , ("name", Text name)
        , ("visibility", visibility (condTreeData t))
        , ("tree", tree flat info t)
        ]

tree :: PackageDescription -> (a -> BuildInfo) -> CondTree ConfVar [Dependency] a -> Value
tree flat info it =
  Object
    [ ("buildable", Truth (buildable of_))
    , ("depends", texts prettyShow (targetBuildDepends of_))
    , ("constraints", texts prettyShow (condTreeConstraints it))
    , ("build-tools", texts prettyShow (buildTools of_))
    , ("build-tool-depends", texts prettyShow (buildToolDepends of_))
    , ("tools", texts prettyShow (getAllToolDependencies flat of_))
    , ("pkgconfig", texts prettyShow (pkgconfigDepends of_))
    , ("languages", texts prettyShow (allLanguages of_))
    , ("extensions", texts prettyShow (allExtensions of_))
    , ("branches", List (map (branch flat info) (condTreeComponents it)))
    ]
  where
    of_ = info (condTreeData it)

branch :: PackageDescription -> (a -> BuildInfo) -> CondBranch ConfVar [Dependency] a -> Value
branch flat info it =
  Object
    [ ("if", Text (condition (condBranchCondition it)))
    , ("then", tree flat info (condBranchIfTrue it))
    , ("else", maybeNull (tree flat info) (condBranchIfFalse it))
    ]

condition :: Condition ConfVar -> String
condition (Var (OS it)) = "os(" ++ prettyShow it ++ ")"
condition (Var (Arch it)) = "arch(" ++ prettyShow it ++ ")"
condition (Var (PackageFlag it)) = "flag(" ++ unFlagName it ++ ")"
condition (Var (Impl it range)) = "impl(" ++ prettyShow it ++ " " ++ prettyShow range ++ ")"
condition (Lit it) = show it
condition (CNot it) = "!" ++ condition it
condition (COr a b) = "(" ++ condition a ++ " || " ++ condition b ++ ")"
condition (CAnd a b) = "(" ++ condition a ++ " && " ++ condition b ++ ")"

-- Files

file :: FilePath -> B.ByteString -> Value
file path found = Object ([("path", Text path)] ++ readAs ++ parsed ++ [("warnings", List (map warning warnings))])
  where
    valid = if isNothing (validateUTF8 found) then found else toUTF8BS (fromUTF8BS found)
    readAs = either (\it -> [("misread", misread it)]) (\its -> [("elements", List (map element its))]) (readFields valid)
    (warnings, result) = runParseResult (parseGenericPackageDescription found)
    parsed = either (\(_, its) -> [("errors", List (map problem (N.toList its)))]) (\it -> [("package", described it)]) result
    problem (PError at it) = List [line at, Text it]
    warning (PWarning kind at it) = List [Text (show kind), line at, Text it]

answer :: FilePath -> IO String
answer path = do
  found <- try (B.readFile path >>= \it -> let out = shown (file path it) in evaluate (length out) >> return out)
  return $ case found of
    Right it -> it
    Left it -> shown (Object [("path", Text path), ("failed", Text (takeWhile (/= '\n') (show (it :: SomeException))))])

main :: IO ()
main = do
  hSetBinaryMode stdin True
  hSetBinaryMode stdout True
  paths <- C.lines <$> C.getContents
  mapM_ (\it -> answer (fromUTF8BS it) >>= C.putStrLn . C.pack) paths
  hFlush stdout
