{-# LANGUAGE BangPatterns #-}
-- What commits.clj, bank.clj, contended.clj, transfers.clj, readers.clj and swaps.clj do, in GHC's STM: stm NAME SIZE.
module Main (main) where

import Control.Concurrent (forkIO, newEmptyMVar, putMVar, takeMVar)
import Control.Concurrent.STM
import Control.Monad (forM, forM_, replicateM)
import Data.Array (Array, listArray, (!))
import Data.IORef (atomicModifyIORef', newIORef, readIORef)
import System.Environment (getArgs)

-- alters a ref by adding to it
add :: Int -> TVar Int -> STM ()
add n ref = modifyTVar' ref (+ n)

-- an action for each of 0 to n - 1
times :: Int -> (Int -> IO ()) -> IO ()
times n act = go 0
  where
    go !i
      | i < n = act i >> go (i + 1)
      | otherwise = pure ()

-- eight threads; it returns once all have ended
eight :: (Int -> IO ()) -> IO ()
eight work = do
  ends <- forM [0 .. 7] $ \k -> do
    end <- newEmptyMVar
    _ <- forkIO (work k >> putMVar end ())
    pure end
  forM_ ends takeMVar

accounts :: Int -> IO (Array Int (TVar Int))
accounts n = listArray (0, n - 1) <$> replicateM n (newTVarIO 100)

total :: Foldable t => t (TVar Int) -> IO Int
total refs = atomically (foldr (\ref rest -> do { !v <- readTVar ref; w <- rest; pure $! v + w }) (pure 0) refs)

run :: String -> Int -> IO Int
run "commits" n = do
  r <- newTVarIO 0
  times n (\_ -> atomically (add 1 r))
  readTVarIO r
run "bank" n = do
  refs <- accounts 1000
  times n $ \i -> atomically $ do
    add (-1) (refs ! (i * 7 `rem` 1000))
    add 1 (refs ! ((i * 13 + 500) `rem` 1000))
  total refs
run "contended" n = do
  r <- newTVarIO 0
  eight (\_ -> times n (\_ -> atomically (add 1 r)))
  readTVarIO r
run "transfers" n = do
  refs <- accounts 900
  eight $ \k -> times n $ \i -> atomically $ do
    add (-1) (refs ! ((i * 7 + k * 112) `rem` 900))
    add 1 (refs ! ((i * 13 + k * 225 + 450) `rem` 900))
  total refs
run "readers" n = do
  refs <- mapM newTVarIO [10, 20, 30, 40]
  let look = atomically (foldr (\ref rest -> do { !v <- readTVar ref; w <- rest; pure $! v + w }) (pure 0) refs)
      move = atomically (add (-1) (head refs) >> add 1 (refs !! 1))
  eight (\k -> times n (\_ -> if k < 7 then look >>= \ !_ -> pure () else move))
  total refs
run "swaps" n = do
  a <- newIORef 0
  eight (\_ -> times n (\_ -> atomicModifyIORef' a (\v -> (v + 1, ()))))
  readIORef a
run name _ = error ("no script " ++ name)

main :: IO ()
main = do
  [name, size] <- getArgs
  run name (read size) >>= print
